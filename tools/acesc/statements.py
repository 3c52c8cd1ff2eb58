"""Statements."""
from __future__ import annotations

import re
from typing import Any, Callable, NamedTuple, Optional

from .builder import RegisterPlace, Registers
from .c_types import Array, Int, Pointer, RecordType, VOID
from .builder import ObjectPlace
from .calls import Calls
from .code import Block, FunctionCode
from .common import MASK32, Node, Refusal, UNKNOWN_FORM, WORD, as_refusal
from .program import Function, Program, Unit, Variable
from .peripherals import Peripheral
from .tree import parts, type_of
from .unit import content

HINTS = re.compile(r'\s*((dsb|isb|dmb|nop|wfi|wfe|sev|cpsi[de])\b[^;\n$%]*)?\s*$', re.I)
# So many cases are tested one after the other; more are halved.
CASES_AT_LEAF = 4


class Case(NamedTuple):
    """The values from `low` to `high` of a switch, and where they lead."""

    low: int
    high: int
    block: Block


class Statements(Calls):
    """Statements of a function."""

    def __init__(self, program: Program, peripherals: list[Peripheral]) -> None:
        super().__init__(program, peripherals)
        self.labels: dict[str, Block] = {}
        self.cases: dict[int, Block] = {}
        self.breaks: list[Block] = []
        self.continues: list[Block] = []
        self.result_pointer = -1

    def begin(self, code: FunctionCode, unit: Unit, function: Optional[Function]) -> None:
        """Begins a function."""
        super().begin(code, unit, function)
        self.labels, self.cases, self.breaks, self.continues = {}, {}, [], []

    def statement(self, node: Node) -> None:
        """A statement; what is refused is told, and the translation goes on."""
        if not node or 'kind' not in node:
            return
        try:
            self.scratch_used = {}
            self._statement(node)
        except (Refusal, *UNKNOWN_FORM) as fault:
            refusal = as_refusal(fault)
            self.messages.error(refusal.what, refusal.place or node.get('_place'))
            self.refused.add(self.function)

    def _statement(self, node: Node) -> None:
        kind = node['kind']
        visit: Optional[Callable[[Node, Any], None]] = getattr(self, 'statement_' + kind, None)
        if visit is not None:
            visit(node, parts(node))
        elif kind == 'NullStmt' or kind.endswith(('Attr', 'Comment')):
            return
        elif node.get('_type') is not None:
            self.mark(node)
            self.effect(node)
        else:
            raise self.refuse(node, f'this statement ({kind})')

    def mark(self, node: Node) -> None:
        """Notes the line of the C source."""
        place = node.get('_place')
        if place and self.block.end is None:
            self.emit('line', None, (), f'{place.file.split("/")[-1]}:{place.line}')

    # ---- each kind
    def statement_CompoundStmt(self, node: Node, inner: list[Node]) -> None:
        """`{ .. }`."""
        for part in inner:
            self.statement(part)

    def statement_DeclStmt(self, node: Node, inner: list[Node]) -> None:
        """Declarations in a function."""
        self.mark(node)
        for part in inner:
            if part['kind'] == 'VarDecl' and not part['_variable'].is_global:
                self.declared(part)

    def statement_AttributedStmt(self, node: Node, inner: list[Node]) -> None:
        """A statement with an attribute."""
        self._statement(inner[-1])

    def statement_IfStmt(self, node: Node, inner: list[Node]) -> None:
        """`if`."""
        self.mark(node)
        yes, end = self.new_block('then'), self.new_block('fi')
        no = self.new_block('else') if node.get('hasElse') else end
        self.condition(inner[0], yes, no)
        self.block = yes
        self.statement(inner[1])
        self.jump(end)
        if node.get('hasElse'):
            self.block = no
            self.statement(inner[2])
        self.go_on(end)

    def statement_WhileStmt(self, node: Node, inner: list[Node]) -> None:
        """`while`."""
        head, body, out = self.new_block('while'), self.new_block('do'), self.new_block('end')
        self.go_on(head)
        self.mark(node)
        self.condition(inner[0], body, out)
        self.block = body
        self.repeated(inner[1], out, head)
        self.jump(head)
        self.block = out

    def statement_DoStmt(self, node: Node, inner: list[Node]) -> None:
        """`do .. while`."""
        body, head, out = self.new_block('do'), self.new_block('while'), self.new_block('end')
        self.go_on(body)
        self.repeated(inner[0], out, head)
        self.go_on(head)
        self.mark(node)
        self.scratch_used = {}
        self.condition(inner[1], body, out)
        self.block = out

    def statement_ForStmt(self, node: Node, inner: list[Node]) -> None:
        """`for`."""
        first, _, test, last, repeated = inner
        if first and first['kind'] == 'DeclStmt':
            self.statement(first)
        elif first:
            self.effect(first)
        head, body, after, out = self.new_block('for'), self.new_block('do'), self.new_block('next'), self.new_block('end')
        self.go_on(head)
        self.scratch_used = {}
        if test:
            self.mark(node)
            self.condition(test, body, out)
        else:
            self.jump(body)
        self.block = body
        self.repeated(repeated, out, after)
        self.go_on(after)
        if last:
            self.scratch_used = {}
            self.effect(last)
        self.jump(head)
        self.block = out

    def repeated(self, node: Node, out: Block, again: Block) -> None:
        """The body of a loop."""
        self.breaks.append(out)
        self.continues.append(again)
        self.statement(node)
        self.breaks.pop()
        self.continues.pop()

    def statement_BreakStmt(self, node: Node, inner: list[Node]) -> None:
        """`break`."""
        self.jump(self.breaks[-1])

    def statement_ContinueStmt(self, node: Node, inner: list[Node]) -> None:
        """`continue`."""
        self.jump(self.continues[-1])

    def statement_LabelStmt(self, node: Node, inner: list[Node]) -> None:
        """A label."""
        self.go_on(self.label(node['declId']))
        for part in inner:
            self.statement(part)

    def statement_GotoStmt(self, node: Node, inner: list[Node]) -> None:
        """`goto`."""
        self.jump(self.label(node['targetLabelDeclId']))

    def label(self, declaration: str) -> Block:
        """The block of a label."""
        if declaration not in self.labels:
            self.labels[declaration] = self.new_block('label')
        return self.labels[declaration]

    def statement_GCCAsmStmt(self, node: Node, inner: list[Node]) -> None:
        """Assembly: hints to the processor are left out, all else is refused."""
        text = assembly_text(node)
        if inner or not HINTS.match(text):
            raise self.refuse(node, 'assembly with an effect: write it in C')
        self.messages.note(f'left out: assembly "{text.strip()}"', node.get('_place'))

    # ---- switch
    def statement_SwitchStmt(self, node: Node, inner: list[Node]) -> None:
        """`switch`: tests by halves."""
        self.mark(node)
        test, body = [part for part in inner if part][-2:]
        ctype = type_of(test)
        assert isinstance(ctype, Int)
        value = self.value(test)
        out = self.new_block('end')
        cases, default = self.found_cases(node, body, ctype, out)
        if ctype.size == 8:
            self.tested_wide(node, value, cases, default)
        else:
            self.tested(value[0], cases, default, 'slt' if ctype.signed else 'ult')
        self.block = self.new_block('dead')
        self.breaks.append(out)
        self.statement(body)
        self.breaks.pop()
        self.go_on(out)

    def found_cases(self, node: Node, body: Node, ctype: Int, out: Block) -> tuple[list[Case], Block]:
        """The cases of a switch in the order of their values, and the block of all other values."""
        cases: list[Case] = []
        default = out
        for label in case_labels(body):
            block = self.cases[id(label)] = self.new_block('case')
            if label['kind'] == 'DefaultStmt':
                default = block
                continue
            low = self.constant(label['inner'][0])
            high = self.constant(label['inner'][1]) if label.get('isGNURange') else low
            if low is None or high is None:
                raise self.refuse(node, 'a case that is not constant')
            cases.append(Case(low, high, block) if ctype.signed else Case(low & MASK32, high & MASK32, block) if ctype.size < 8
                         else Case(low, high, block))
        return sorted(cases, key=lambda case: case.low), default

    def tested(self, value: int, cases: list[Case], default: Block, less: str) -> None:
        """Tests which case a value is."""
        if len(cases) > CASES_AT_LEAF:
            middle = len(cases) // 2
            low, high = self.new_block('t'), self.new_block('t')
            self.branch(self.operate(less, value, self.constant_value(cases[middle].low)), low, high)
            for block, part in ((low, cases[:middle]), (high, cases[middle:])):
                self.block = block
                self.tested(value, part, default, less)
            return
        for case in cases:
            other = self.new_block('t')
            if case.low == case.high:
                found = self.operate('eq', value, self.constant_value(case.low))
            else:
                found = self.operate('ule', self.operate_by('sub', value, case.low & MASK32), self.constant_value(case.high - case.low))
            self.branch(found, case.block, other)
            self.block = other
        self.jump(default)

    def tested_wide(self, node: Node, value: Registers, cases: list[Case], default: Block) -> None:
        """The same of 64 bits, one after the other."""
        for case in cases:
            if case.low != case.high:
                raise self.refuse(node, 'a range of 64-bit cases: write an if')
            other = self.new_block('t')
            low = self.operate('xor', value[0], self.constant_value(case.low))
            high = self.operate('xor', value[1], self.constant_value(case.low >> 32))
            self.branch(self.operate('or', low, high), other, case.block)
            self.block = other
        self.jump(default)

    def statement_CaseStmt(self, node: Node, inner: list[Node]) -> None:
        """A case."""
        self.go_on(self.cases[id(node)])
        self.statement(inner[-1])

    statement_DefaultStmt = statement_CaseStmt

    # ---- variables
    def in_register(self, variable: Variable) -> bool:
        """Whether a variable lives in registers."""
        return not variable.is_global and not variable.address_taken and isinstance(variable.ctype, (Int, Pointer))

    def give_registers(self, variable: Variable) -> None:
        """Makes the registers of a variable."""
        self.name_registers(variable, [self.new_value(t) for t in self.value_types(variable.memory, variable.ctype)])

    def name_registers(self, variable: Variable, registers: Registers) -> None:
        """Makes these the registers of a variable."""
        self.variables[variable] = registers
        for register in registers:
            self.code.names.setdefault(register, variable)

    def declared(self, node: Node) -> None:
        """A variable that is declared, and its first value."""
        variable: Variable = node['_variable']
        in_register = self.in_register(variable)
        if in_register:
            if variable not in self.variables:
                self.give_registers(variable)
        elif isinstance(variable.ctype, Array) and variable.ctype.count == 0:
            raise Refusal('an array of no elements')
        else:
            self.declare_local(variable)
        values = content(node)
        if not node.get('init') or not values:
            return
        value = values[-1]
        if in_register:
            place = RegisterPlace(variable, variable.ctype)
            value = value['inner'][0] if value['kind'] == 'InitListExpr' else value
            self.stored(place, self.value_for(value, variable.ctype, place))
        else:
            self.initialised(lambda: self.variable_place(variable), variable.ctype, value)

    # ---- return
    def statement_ReturnStmt(self, node: Node, inner: list[Node]) -> None:
        """`return`."""
        self.mark(node)
        function = self.function
        assert function is not None
        ctype = function.ctype.result
        if function.text_name == 'main' or ctype == VOID or not inner:
            if inner:
                self.effect(inner[0])
            self.leave_without(function.text_name != 'main' and ctype != VOID)
            return
        signature = function.memory.root().functions[0]
        if isinstance(ctype, RecordType):
            source = self.struct_value(inner[0])
            memory = signature.result.root()
            to = ObjectPlace(memory, ctype, {self.view_of(memory, ctype): (self.result_pointer, False)})
            self.copied(to, source, ctype)
            self.leave(None)
            return
        value = self.value(inner[0])
        if isinstance(ctype, Pointer):
            value = self.converted(value, self.class_of_pointer(inner[0]), self.pointer_in(signature.result))
        extra = self.lowered(signature).extra
        for number, word in enumerate(extra):
            at = self.result_pointer if len(extra) == 1 else self.field_of(self.result_pointer, f'w{number}', word)
            self.store_to(at, value[1 + number])
        self.leave(value[0])

    def leave_without(self, some: bool) -> None:
        """Returns without a value that C tells; `some`: the caller takes one."""
        if self.block.end is None:
            result = self.code.result
            if not some or result is None:
                self.leave(None)
            else:
                self.leave(self.constant_value(0) if result == WORD else self.null(result))


def case_labels(body: Node) -> list[Node]:
    """The labels of a switch, without those of switches inside."""
    found: list[Node] = []

    def walk(node: object) -> None:
        if not isinstance(node, dict) or node.get('kind') == 'SwitchStmt' or node.get('_type') is not None:
            return
        if node.get('kind') in ('CaseStmt', 'DefaultStmt'):
            found.append(node)
        for part in node.get('inner', ()):
            walk(part)
    walk(body)
    return found


def assembly_text(node: Node) -> str:
    """The dump does not tell the text of an assembly statement: it is looked up in the source."""
    place = node.get('_place')
    if place is None:
        return '?'
    try:
        with open(place.file, errors='replace') as file:
            line = file.read().split('\n')[place.line - 1]
    except (OSError, IndexError):
        return '?'
    found = re.findall(r'"([^"]*)"', line[max(place.column - 1, 0):])
    return str(found[0]) if found else '?'

