"""Whole functions: parameters, bodies, and the function of first values."""
from __future__ import annotations

from .builder import Callee
from .c_types import RecordType
from .classes import LoweredSignature, Signature
from .code import FunctionCode
from .common import fresh
from .program import Function, Unit
from .statements import Statements

INITIALISER = 'first values'


class Functions(Statements):
    """Code of functions."""

    initialised_units: list[Unit] = []

    def name_everything(self, functions: list[Function]) -> None:
        """Gives functions their names: `main` first, then in the order in which they were reached."""
        for function in functions:
            if function.name == 'main' and not function.is_static:
                function.text_name = fresh('main', self.taken)
        for function in functions:
            if function.text_name is None:
                function.text_name = fresh(function.name, self.taken)

    def function_code(self, function: Function) -> FunctionCode:
        """The code of a function."""
        assert function.text_name is not None and function.body is not None
        code = FunctionCode(function.text_name, function.place, function)
        self.begin(code, function.unit, function)
        signature: Signature = function.memory.root().functions[0]
        for variable in function.parameters:
            variable.owner = code
        if function.text_name == 'main':
            for variable in function.parameters:
                self.give_registers(variable)
            for unit in self.initialised_units:
                self.emit('call', None, (), Callee(INITIALISER, unit))
        else:
            self.parameters(function, signature, self.lowered(signature))
        self.statement(function.body)
        self.leave_without(code.result is not None)
        for block in code.blocks:
            if block.end is None:
                self.block = block
                if code.result is None:
                    self.leave(None)
                else:
                    self.jump(block)
        return code

    def parameters(self, function: Function, signature: Signature, lowered: LoweredSignature) -> None:
        """Takes the parameters from their registers, and from the caller's struct."""
        code = self.code
        code.parameters = [self.new_value(t) for t in lowered.direct]
        code.result = lowered.result
        words = list(code.parameters)
        if lowered.rest:
            words = words[:3]
            for number, word in enumerate(lowered.words[3:]):
                cell, value = self.new_value('*' + word), self.new_value(word)
                self.emit('field', cell, (code.parameters[3],), f'w{number}')
                self.emit('load', value, (cell,))
                words.append(value)
        if isinstance(function.ctype.result, RecordType) or lowered.extra:
            self.result_pointer = words.pop(0)
        for variable, memory in zip(function.parameters, signature.parameters):
            count = len(self.value_types(memory, variable.ctype))
            own, words = words[:count], words[count:]
            if isinstance(variable.ctype, RecordType):
                variable.text_name = None
                self.in_place[variable] = (memory, own[0])
            elif self.in_register(variable):
                self.name_registers(variable, own)
            else:
                variable.text_name = self.new_local(variable.name, self.object_type(variable.memory, variable.ctype))
                for register in own:
                    code.names.setdefault(register, variable)
                self.stored(self.variable_place(variable), own)

