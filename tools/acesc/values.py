"""Values of expressions, in the order of evaluation that clang has without optimisation."""
from __future__ import annotations

from typing import Optional

from .builder import AnyPlace, DevicePlace, MemoryPlace, RegisterPlace, Registers
from .c_types import CType, Float, FunctionType, INT, Int, LONG, Pointer, RecordType, VOID
from .classes import NUMBER, PointerClass
from .code import Block
from .common import FLOATING, LEAK, Node, RUNTIME_ADDRESS, WORD
from .program import Function
from .arithmetic import Range
from .ranges import Ranges
from .shape import container, undefined
from .tree import COMPARISONS, WRAPPERS, is_cast, is_null, parts, peel, type_of


class Values(Ranges):
    """Expressions."""

    def value(self, node: Node) -> Registers:
        """The registers of an expression's value."""
        kind, ctype = node['kind'], type_of(node)
        if kind in WRAPPERS:
            return self.value(parts(node)[0])
        if isinstance(ctype, Int):
            constant = self.constant(node)
            if constant is not None:
                return self.constant_number(constant, ctype)
        if isinstance(ctype, Pointer):
            address = self.device_address(node)
            if address is not None:
                pointer: PointerClass = node['_pointer']
                return self.pointer_to(DevicePlace(address, ctype.to), pointer) if address else self.null_pointer(pointer)
        if is_cast(node):
            return self.cast(node, node['castKind'], parts(node)[0], ctype)
        if kind == 'UnaryOperator':
            return self.unary(node, node['opcode'], parts(node)[0], ctype)
        if kind == 'BinaryOperator':
            return self.binary(node, node['opcode'], *parts(node))
        if kind == 'CompoundAssignOperator':
            return self.compound(node, True)
        if kind == 'ConditionalOperator':
            return self.chosen(node, ctype)
        if kind == 'CallExpr':
            return self.call(node, True).registers
        if kind == 'StmtExpr':
            return self.statement_value(node)
        if kind == 'ImplicitValueInitExpr':
            return self.constant_number(0, ctype) if isinstance(ctype, Int) else self.null_pointer(node['_pointer'])
        if kind == 'InitListExpr':
            return self.value(parts(node)[0])
        raise self.refuse(node, f'this expression ({kind})')

    def null_pointer(self, pointer: PointerClass) -> Registers:
        """The null pointer of a class."""
        return [self.constant_value(0) if view == NUMBER else self.null(word) for view, word in self.words_of(pointer)]

    def struct_value(self, node: Node) -> MemoryPlace:
        """Where the struct lies that an expression gives."""
        kind, inner = node['kind'], parts(node)
        if kind in WRAPPERS or is_cast(node, 'NoOp'):
            return self.struct_value(inner[0])
        found: Optional[AnyPlace] = None
        if is_cast(node, 'LValueToRValue'):
            found = self.place(inner[0])
        elif kind == 'CallExpr':
            found = self.call(node, True).place
        elif kind == 'BinaryOperator' and node['opcode'] == '=':
            found = self.assigned_struct(*inner)
        elif kind == 'BinaryOperator' and node['opcode'] == ',':
            self.effect(inner[0])
            return self.struct_value(inner[1])
        elif kind == 'StmtExpr':
            return self.statement_struct(node)
        elif kind in ('CompoundLiteralExpr', 'DeclRefExpr', 'MemberExpr', 'ArraySubscriptExpr') or \
                kind == 'UnaryOperator' and node['opcode'] == '*':
            found = self.place(node)
        elif kind == 'ConditionalOperator':
            raise self.refuse(node, 'a struct chosen by ?:: choose between pointers to them, or write an if')
        if found is None or isinstance(found, RegisterPlace):
            raise self.refuse(node, f'this struct ({kind})')
        return found

    def statement_value(self, node: Node) -> Registers:
        """`({ .. })`."""
        body = parts(parts(node)[0])
        found: Registers = []
        for part in body:
            if part is not body[-1] or part.get('_type') is None:
                self.statement(part)
            elif type_of(part) == VOID:
                self.effect(part)
            else:
                found = self.value(part)
        return found

    def statement_struct(self, node: Node) -> MemoryPlace:
        """`({ .. })` that gives a struct."""
        body = parts(parts(node)[0])
        for part in body[:-1]:
            self.statement(part)
        return self.struct_value(body[-1])

    def chosen(self, node: Node, ctype: CType) -> Registers:
        """`c ? a : b`."""
        test, *choices = parts(node)
        yes, no, end = self.new_block('then'), self.new_block('else'), self.new_block('end')
        self.condition(test, yes, no)
        pointer: Optional[PointerClass] = node.get('_pointer')
        types = [WORD] * (2 if isinstance(ctype, Int) and ctype.size == 8 else 1)
        if isinstance(ctype, Pointer) and pointer is not None:
            types = [word for _, word in self.words_of(pointer)]
        found = [self.new_value(t) for t in types]
        for block, choice in zip((yes, no), choices):
            self.block = block
            value = self.value(choice)
            if pointer is not None:
                value = self.converted(value, self.class_of_pointer(choice), pointer)
            if ctype != VOID:
                for to, source in zip(found, value):
                    self.move(to, source)
            self.jump(end)
        self.block = end
        return found

    # ---- casts
    def cast(self, node: Node, cast: str, operand: Node, ctype: CType) -> Registers:
        """A cast."""
        if cast == 'LValueToRValue':
            return self.loaded(self.place(operand))
        if cast == 'IntegralCast':
            source = type_of(operand)
            assert isinstance(source, Int) and isinstance(ctype, Int)
            value = self.value(operand)
            return self.converted_number(value, source, ctype, self.range_of(operand))
        if cast == 'BooleanToSignedIntegral':
            return [self.operate('sub', self.constant_value(0), self.value(operand)[0])]
        if cast == 'NoOp':
            return self.value(operand)
        if cast == 'ArrayToPointerDecay':
            return self.pointer_to(self.place(operand), node['_pointer'])
        if cast == 'FunctionToPointerDecay':
            function = peel(operand)
            if function['kind'] == 'UnaryOperator' and function['opcode'] == '*':
                return self.value(function['inner'][0])
            return self.function_value(function, node)
        if cast == 'BitCast':
            return self.pointer_cast(node, operand)
        if cast == 'PointerToIntegral':
            if '_counted' not in node:
                raise self.refuse(node, LEAK)
            return [self.number_word(operand)]
        if cast in ('PointerToBoolean', 'IntegralToBoolean'):
            return [self.truth(operand)]
        if cast == 'ToVoid':
            self.effect(operand)
            return []
        raise self.refuse(node, RUNTIME_ADDRESS if cast == 'IntegralToPointer' else f'this cast ({cast})')

    def pointer_cast(self, node: Node, operand: Node) -> Registers:
        """A cast of a pointer changes nothing, unless it leads from a member to the struct around it."""
        member = container(self, node)
        if not member:
            return self.value(operand)
        inner, offset = member
        found = list(self.value(inner))
        pointer = self.class_of_pointer(inner)
        if pointer.root().numbered == 2:
            found[-1] = self.operate_by('sub', found[-1], offset)
        units = pointer.memory().units
        if units:
            back = self.constant_value(-(offset // units[0]))
            found = [self.element(register, back, word) if view[0] == 'u' else register
                     for register, (view, word) in zip(found, self.words_of(pointer))]
        return found

    def function_value(self, node: Node, around: Node) -> Registers:
        """A pointer to a function."""
        function = self.entity(node)
        if not isinstance(function, Function):
            raise self.refuse(around, 'a pointer to a function that is no name')
        pointer: PointerClass = around['_pointer']
        own = function.memory.root().functions[0]
        found: Registers = []
        for view, word in self.words_of(pointer):
            if view == NUMBER:
                found.append(self.constant_value(self.number_of(function)))
            elif view[0] == 'function' and pointer.memory().functions[int(view[1])].like(own):
                if function.body is None:
                    raise self.refuse(around, undefined(function.name))
                found.append(self.made(word, 'function', (), function))
            else:
                found.append(self.null(word))
        return found

    def number_word(self, node: Node) -> int:
        """The number of a pointer."""
        if is_null(node):
            return self.constant_value(0)
        pointer = self.class_of_pointer(node)
        value = self.value(node)
        return value[-1] if pointer.root().numbered else self.constant_value(1)

    def truth(self, node: Node) -> int:
        """1 where an expression is not 0, and else 0."""
        if isinstance(type_of(node), Pointer):
            return self.operate('ne', self.number_word(node), self.constant_value(0))
        if self.range_of(node) == (0, 1):
            return self.value(node)[0]
        found = self.is_not_zero(self.value(node))
        return self.operate('ne', found, self.constant_value(0))

    # ---- operators
    def unary(self, node: Node, symbol: str, operand: Node, ctype: CType) -> Registers:
        """An operator with one operand."""
        if symbol == '&':
            operand = peel(operand)
            if operand['kind'] == 'DeclRefExpr' and isinstance(self.entity(operand), Function):
                return self.function_value(operand, node)
            return self.pointer_to(self.place(operand), node['_pointer'])
        if symbol in ('++', '--'):
            return self.stepped_variable(node, True)
        if symbol == '!':
            if isinstance(type_of(operand), Pointer):
                return [self.operate('eq', self.number_word(operand), self.constant_value(0))]
            return [self.operate('eq', self.is_not_zero(self.value(operand)), self.constant_value(0))]
        if symbol in ('+', '__extension__'):
            return self.value(operand)
        value = self.value(operand)
        if symbol == '-':
            if len(value) == 2:
                return self.computed64('-', self.constant_number(0, LONG), value, False, None)
            return [self.operate('sub', self.constant_value(0), value[0])]
        if symbol == '~':
            ones = self.constant_value(-1)
            return [self.operate('xor', part, ones) for part in value]
        raise self.refuse(node, f'this operator ({symbol})')

    def stepped_variable(self, node: Node, wanted: bool) -> Registers:
        """`++` and `--`."""
        operand, negative, postfix = node['inner'][0], node['opcode'] == '--', bool(node.get('isPostfix'))
        ctype = type_of(operand)
        place = self.place(operand)
        old = self.loaded(place)
        symbol = '-' if negative else '+'
        if isinstance(ctype, Pointer):
            new = self.moved_pointer(old, self.pointer_class_of(place), ctype, 1, None, negative)
        elif not isinstance(ctype, Int):
            raise self.refuse(node, FLOATING)
        elif ctype.size == 8:
            new = self.computed64(symbol, old, self.constant_number(1, ctype), ctype.signed, None)
        else:
            new = [self.operate_by('sub' if negative else 'add', old[0], 1)]
            if ctype.size < 4 and (isinstance(place, RegisterPlace) or wanted and not postfix):
                new = self.converted_number(new, INT, ctype)
        if postfix and wanted and isinstance(place, RegisterPlace):
            old = [self.copy_of(register) for register in old]
        self.stored(place, new)
        return old if postfix else self.after_store(place, new)

    def copy_of(self, register: int) -> int:
        """A copy of a value that is about to change."""
        found = self.new_value(self.code.types[register])
        self.move(found, register)
        return found

    def after_store(self, place: AnyPlace, value: Registers) -> Registers:
        """The value of an assignment."""
        return list(self.variables[place.variable]) if isinstance(place, RegisterPlace) else value

    def assigned(self, node: Node, wanted: bool) -> Registers:
        """`a = b`: first the right side, then the place."""
        left, right = parts(node)
        ctype = type_of(left)
        if isinstance(ctype, RecordType):
            self.assigned_struct(left, right)
            return []
        if isinstance(ctype, Pointer):
            value = self.value(right)
            place = self.place(left)
            value = self.converted(value, self.class_of_pointer(right), self.pointer_class_of(place))
            self.stored(place, value)
            return self.after_store(place, value)
        if not isinstance(ctype, Int):
            raise self.refuse(node, FLOATING)
        target = peel(left)
        in_register = target['kind'] == 'DeclRefExpr' and self.entity(target) in self.variables
        value = self.value(right) if in_register or wanted or self.is_bit_field(target) else self.low_part(right, ctype.size)
        place = self.place(left)
        self.stored(place, value)
        return self.after_store(place, value)

    def assigned_struct(self, left: Node, right: Node) -> AnyPlace:
        """`a = b` of structs."""
        value = self.struct_value(right)
        place = self.place(left)
        self.copied(place, value, type_of(left))
        return place

    def is_bit_field(self, node: Node) -> bool:
        """Whether a place is a bit field."""
        return node['kind'] == 'MemberExpr' and self.field(node)[1].bits is not None

    def low_part(self, node: Node, size: int) -> Registers:
        """A value of which only the low bytes count: conversions that keep them are left out."""
        while node['kind'] == 'ParenExpr' or is_cast(node, 'IntegralCast') and self.keeps_low(node, size):
            node = node['inner'][0]
        value = self.value(node)
        ctype = type_of(node)
        if size == 8 and len(value) == 1 and isinstance(ctype, Int):
            return self.widened(value[0], ctype)
        return value

    def keeps_low(self, node: Node, size: int) -> bool:
        """Whether a conversion keeps so many low bytes."""
        to, source = type_of(node), type_of(node['inner'][0])
        return isinstance(to, Int) and isinstance(source, Int) and to.size >= size and source.size >= size and self.constant(node) is None

    def compound(self, node: Node, wanted: bool) -> Registers:
        """`a += b` and the like."""
        left, right = parts(node)
        ctype, symbol = type_of(left), node['opcode'][:-1]
        constant = self.constant(right)
        if isinstance(ctype, Pointer):
            index = None if constant is not None else self.value(right)[0]
            place = self.place(left)
            moved = self.moved_pointer(self.loaded(place), self.pointer_class_of(place), ctype, constant, index, symbol == '-')
            self.stored(place, moved)
            return self.after_store(place, moved)
        inner = self.unit.types.parse(node['computeLHSType']['qualType'])
        if not isinstance(ctype, Int) or not isinstance(inner, Int):
            raise self.refuse(node, FLOATING)
        operand = self.value(right)
        place = self.place(left)
        old = self.converted_number(self.loaded(place), ctype, inner)
        new = self.computed(symbol, old, operand, inner, constant)
        if isinstance(place, RegisterPlace) or wanted or self.is_bit_field(peel(left)):
            new = self.converted_number(new, inner, ctype, compound_range(symbol, ctype, constant))
        self.stored(place, new)
        return self.after_store(place, new)

    def binary(self, node: Node, symbol: str, left: Node, right: Node) -> Registers:
        """An operator with two operands."""
        if symbol == '=':
            return self.assigned(node, True)
        if symbol == ',':
            self.effect(left)
            return self.value(right)
        if symbol in ('&&', '||'):
            return [self.condition_value(node)]
        one, other = type_of(left), type_of(right)
        if symbol in COMPARISONS:
            return [self.comparison(node, symbol, left, right)]
        if isinstance(one, Pointer) and isinstance(other, Pointer):
            return [self.distance(left, right, one)]
        if isinstance(one, Pointer) or isinstance(other, Pointer):
            return self.pointer_sum(left, right, symbol == '-')
        ctype = type_of(node)
        if not isinstance(ctype, Int):
            raise self.refuse(node, FLOATING)
        first = self.value(left)
        second = self.value(right)
        return self.computed(symbol, first, second, ctype, self.constant(right))

    def condition_value(self, node: Node) -> int:
        """`a && b` and `a || b` as a number."""
        found = self.new_value()
        yes, no, end = self.new_block('and'), self.new_block('or'), self.new_block('end')
        self.condition(node, yes, no)
        self.block = yes
        self.emit('number', found, (), 1)
        self.jump(end)
        self.block = no
        self.emit('number', found, (), 0)
        self.go_on(end)
        return found

    def comparison(self, node: Node, symbol: str, left: Node, right: Node) -> int:
        """A comparison of numbers or pointers."""
        ctype = type_of(left)
        if isinstance(ctype, Pointer):
            first = self.number_word(left)
            return self.compared(symbol, [first], [self.number_word(right)], False)
        if not isinstance(ctype, Int):
            raise self.refuse(node, FLOATING)
        value = self.value(left)
        return self.compared(symbol, value, self.value(right), ctype.signed)

    def distance(self, left: Node, right: Node, ctype: Pointer) -> int:
        """How many elements lie between two pointers."""
        size = self.layouts.size(ctype.to) if ctype.to != VOID else 1
        first = self.number_word(left)
        found = self.operate('sub', first, self.number_word(right))
        if size == 1:
            return found
        if size & (size - 1) == 0:
            return self.operate_by('sar', found, size.bit_length() - 1)
        return self.operate_by('sdiv', found, size)

    def pointer_sum(self, left: Node, right: Node, negative: bool) -> Registers:
        """A pointer plus or minus a number."""
        first = isinstance(type_of(left), Pointer)
        pointer, number = (left, right) if first else (right, left)
        constant = self.constant(number)
        index: Optional[int] = None
        if first:
            value = self.value(pointer)
            index = None if constant is not None else self.value(number)[0]
        else:
            index = None if constant is not None else self.value(number)[0]
            value = self.value(pointer)
        return self.moved_pointer(value, self.class_of_pointer(pointer), type_of(pointer), constant, index, negative)

    # ---- for effects only
    def effect(self, node: Node) -> None:
        """An expression of which the value is not wanted."""
        kind, inner = node['kind'], parts(node)
        if kind == 'ParenExpr' or is_cast(node, 'ToVoid', 'NoOp'):
            self.effect(inner[0])
        elif kind == 'BinaryOperator' and node['opcode'] == ',':
            self.effect(inner[0])
            self.effect(inner[1])
        elif kind == 'UnaryOperator' and node['opcode'] in ('++', '--'):
            self.stepped_variable(node, False)
        elif kind == 'BinaryOperator' and node['opcode'] == '=':
            self.assigned(node, False)
        elif kind == 'CompoundAssignOperator':
            self.compound(node, False)
        elif kind == 'ConditionalOperator':
            self.chosen_effect(*inner)
        elif kind == 'CallExpr':
            self.call(node, False)
        elif isinstance(type_of(node), RecordType):
            if kind != 'DeclRefExpr':
                self.struct_value(node)
        elif node.get('valueCategory') == 'lvalue' and not isinstance(type_of(node), (Float, FunctionType)) and type_of(node) != VOID:
            if kind not in ('DeclRefExpr', 'StringLiteral'):
                self.place(node)
        else:
            self.value(node)

    def chosen_effect(self, test: Node, yes_node: Node, no_node: Node) -> None:
        """`c ? a : b` for its effects."""
        yes, no, end = self.new_block('then'), self.new_block('else'), self.new_block('end')
        self.condition(test, yes, no)
        self.block = yes
        self.effect(yes_node)
        self.jump(end)
        self.block = no
        self.effect(no_node)
        self.go_on(end)

    # ---- conditions
    def condition(self, node: Node, yes: Block, no: Block) -> None:
        """Branches by an expression."""
        kind, inner, ctype = node['kind'], parts(node), type_of(node)
        constant = self.constant(node) if isinstance(ctype, Int) else None
        if kind in WRAPPERS or is_cast(node, 'IntegralToBoolean') and constant is None or self.cast_keeps_truth(node, constant):
            self.condition(inner[0], yes, no)
        elif constant is not None:
            self.jump(yes if constant else no)
        elif kind == 'UnaryOperator' and node['opcode'] == '!':
            self.condition(inner[0], no, yes)
        elif kind == 'BinaryOperator' and node['opcode'] in ('&&', '||'):
            second = self.new_block('c')
            if node['opcode'] == '&&':
                self.condition(inner[0], second, no)
            else:
                self.condition(inner[0], yes, second)
            self.block = second
            self.condition(inner[1], yes, no)
        elif kind == 'BinaryOperator' and node['opcode'] in ('==', '!=') and self.with_zero(*inner):
            self.condition(inner[0], *((yes, no) if node['opcode'] == '!=' else (no, yes)))
        elif isinstance(ctype, Pointer):
            self.branch(self.number_word(node), yes, no)
        else:
            self.branch(self.is_not_zero(self.value(node)), yes, no)

    def with_zero(self, left: Node, right: Node) -> bool:
        """Whether a comparison is with 0 or null."""
        if isinstance(type_of(left), Int):
            return self.constant(right) == 0
        return isinstance(type_of(left), Pointer) and is_null(right)

    def cast_keeps_truth(self, node: Node, constant: Optional[int]) -> bool:
        """Whether a conversion is 0 exactly where its operand is."""
        if constant is not None or not is_cast(node, 'IntegralCast'):
            return False
        to, source = type_of(node), type_of(parts(node)[0])
        if not isinstance(to, Int) or not isinstance(source, Int):
            return False
        if source.size <= to.size:
            return True
        low, high = self.range_of(parts(node)[0])
        return low >= 0 and high < 1 << 8 * to.size - 1


def compound_range(symbol: str, ctype: Int, constant: Optional[int]) -> Optional[Range]:
    """Bounds that the result of a compound assignment keeps to by its operator."""
    if constant is None or constant < 0 or ctype.size >= 4:
        return None
    if not ctype.signed and (symbol in '|^' and constant < 1 << 8 * ctype.size or symbol == '>>'):
        return 0, (1 << 8 * ctype.size) - 1
    return (0, constant) if symbol == '&' else None

