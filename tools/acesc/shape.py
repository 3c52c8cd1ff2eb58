"""What each pointer may lead to: visits all that `main` reaches, and joins classes of memory where pointers flow."""
from __future__ import annotations

from typing import Callable, Optional, Union

from .c_types import Array, CType, Float, Int, Pointer, RecordType, VOID
from .classes import Classes, Memory, PointerClass, Signature, parameter_count
from .common import FLOATING, Node, Refusal, RUNTIME_ADDRESS, UNKNOWN_FORM, VARIADIC, as_refusal
from .layout import Field
from .program import Function, Program, Variable
from .tree import COMPARISONS, MEMORY_FUNCTIONS, WRAPPERS, is_cast, is_null, parts, peel, type_of
from .unit import content

# The class of a pointer, the class of a struct, or nothing for a number.
Value = Union[PointerClass, Memory, None]
LVALUES = ('DeclRefExpr', 'MemberExpr', 'ArraySubscriptExpr', 'StringLiteral', 'CompoundLiteralExpr', 'PredefinedExpr')


class MemoryCopy:
    """A call of memcpy, memmove or memset: its operands, and how many bytes where that is constant."""

    def __init__(self, destination: PointerClass, destination_node: Node, source: Optional[PointerClass], source_node: Node,
                 count: Optional[int]) -> None:
        self.destination, self.destination_node = destination, destination_node
        self.source, self.source_node, self.count = source, source_node, count


class Shapes:
    """What the analysis found, beside the classes that it put into variables, fields and nodes."""

    def __init__(self) -> None:
        self.functions: list[Function] = []
        self.globals: list[Variable] = []
        self.refused: set[Optional[Function]] = set()
        self.flows: list[tuple[PointerClass, PointerClass]] = []        # to, from
        self.copies: list[MemoryCopy] = []
        self.casts: list[tuple[Node, PointerClass]] = []                # to pointers to integers


class Analysis(Classes):
    """The visit of all functions and first values."""

    def __init__(self, program: Program) -> None:
        super().__init__(program)
        self.shapes = Shapes()
        self.function: Optional[Function] = None
        self.seen: set[int] = set()
        self.todo: list[Union[Function, Variable]] = []

    # ---- what is reached
    def reach(self, entity: Union[Function, Variable]) -> None:
        """Puts a function or global among those to be visited, once."""
        if id(entity) not in self.seen:
            self.seen.add(id(entity))
            self.todo.append(entity)

    def visit_all(self, roots: list[Function]) -> None:
        """Visits the roots and all that they reach."""
        for root in roots:
            self.reach(root)
        while self.todo:
            entity = self.todo.pop()
            self.unit = entity.unit
            if isinstance(entity, Function):
                self.function = entity
                if entity.body is not None:
                    self.shapes.functions.append(entity)
                    self.visit_function(entity, entity.body)
                continue
            self.function = None
            try:
                memory = self.variable_memory(entity)
                if entity.first_value is not None:
                    self.first_value(memory, entity.ctype, entity.first_value)
            except (Refusal, *UNKNOWN_FORM) as fault:
                refusal = as_refusal(fault)
                self.messages.error(refusal.what, refusal.place or entity.place)

    def visit_function(self, function: Function, body: Node) -> None:
        """Visits a body, unless the head is refused."""
        try:
            if function.fault:
                raise Refusal(function.fault, function.place)
            self.function_memory(function)
        except (Refusal, *UNKNOWN_FORM) as fault:
            refusal = as_refusal(fault)
            self.messages.error(refusal.what, refusal.place or function.place)
            self.shapes.refused.add(function)
            return
        self.statement(body)

    def variable_memory(self, variable: Variable) -> Memory:
        """The class of a variable."""
        if variable.memory is None:
            variable.memory = self.memory_of_type(variable.ctype)
            variable.memory.root().object = True
            if variable.is_global:
                self.shapes.globals.append(variable)
        found: Memory = variable.memory
        return found

    def function_memory(self, function: Function) -> Memory:
        """The class of a function."""
        if function.memory is None:
            if function.fault:
                raise Refusal(function.fault, function.place)
            function.memory = self.new_memory()
            if function.body is not None:
                parameters = [self.variable_memory(v) for v in function.parameters]
            else:
                parameters = [self.memory_of_type(p) for p in function.ctype.parameters]
            function.memory.functions.append(Signature(function.ctype, self.memory_of_type(function.ctype.result), parameters))
        found: Memory = function.memory
        return found

    # ---- flows
    def flow(self, to: PointerClass, value: Value) -> None:
        """A pointer goes from a value to a place."""
        if isinstance(value, PointerClass):
            self.join(to.memory(), value.memory())
            self.shapes.flows.append((to, value))

    def need_number(self, value: Value, how: int) -> None:
        """Pointers of a class are tested for null (1) or compared (2)."""
        if isinstance(value, PointerClass):
            value.root().numbered = max(value.root().numbered, how)

    def made(self, node: Node, found: PointerClass) -> PointerClass:
        """Keeps the class of a pointer that an expression makes."""
        node['_pointer'] = found
        return found

    # ---- lvalues
    def lvalue(self, node: Node) -> Memory:
        """The class of an lvalue."""
        kind = node['kind']
        if kind in WRAPPERS or is_cast(node, 'NoOp', 'LValueBitCast') or kind == 'UnaryOperator' and node['opcode'] == '__extension__':
            return self.lvalue(parts(node)[0])
        if self.device_address(node) is not None:
            found = self.memory_of_type(type_of(node))
            found.root().peripheral = True
            return found
        visit: Optional[Callable[[Node], Memory]] = getattr(self, 'lvalue_' + kind, None)
        if visit is not None:
            return visit(node)
        if kind in ('CallExpr', 'ConditionalOperator', 'StmtExpr', 'BinaryOperator') or is_cast(node):
            value = self.value(node)
            if isinstance(value, Memory):
                return value
        if kind == 'VAArgExpr':
            raise self.refuse(node, VARIADIC)
        raise self.refuse(node, f'this lvalue ({kind})')

    def lvalue_DeclRefExpr(self, node: Node) -> Memory:
        """A name."""
        entity = self.entity(node)
        if isinstance(entity, Function):
            self.reach(entity)
            return self.function_memory(entity)
        if not isinstance(entity, Variable):
            raise self.refuse(node, 'this name')
        if entity.is_global:
            self.reach(entity)
        return self.variable_memory(entity)

    def lvalue_UnaryOperator(self, node: Node) -> Memory:
        """`*p`."""
        value = self.value(parts(node)[0]) if node['opcode'] == '*' else None
        if not isinstance(value, PointerClass):
            raise self.refuse(node, f'this lvalue (operator {node["opcode"]})')
        return value.memory()

    def lvalue_ArraySubscriptExpr(self, node: Node) -> Memory:
        """`p[i]`."""
        pointer, index = parts(node)
        if not isinstance(type_of(pointer), Pointer):
            pointer, index = index, pointer
        value = self.value(pointer)
        self.value(index)
        if not isinstance(value, PointerClass):
            raise self.refuse(node, 'an element of something that is no pointer (a vector?)')
        return value.memory()

    def lvalue_MemberExpr(self, node: Node) -> Memory:
        """`s.f` and `p->f`."""
        inner = parts(node)[0]
        if not node.get('isArrow') and inner.get('valueCategory') == 'lvalue':
            self.lvalue(inner)
        else:
            self.value(inner)
        record, field = self.field(node)
        self.fields_of(record.key)
        found: Memory = field.memory
        return found

    def lvalue_StringLiteral(self, node: Node) -> Memory:
        """A text."""
        variable = self.string(node)
        self.reach(variable)
        return self.variable_memory(variable)

    def lvalue_PredefinedExpr(self, node: Node) -> Memory:
        """`__func__`."""
        return self.lvalue(parts(node)[0])

    def lvalue_CompoundLiteralExpr(self, node: Node) -> Memory:
        """`(T){..}`: a variable without a name."""
        if '_variable' not in node:
            variable = Variable('literal', type_of(node), self.unit)
            variable.address_taken = variable.is_defined = variable.is_static = True
            variable.is_global = self.function is None
            variable.first_value = parts(node)[0]
            variable.place = node.get('_place')
            node['_variable'] = variable
            if variable.is_global:
                self.reach(variable)
        memory = self.variable_memory(node['_variable'])
        self.first_value(memory, node['_variable'].ctype, parts(node)[0])
        return memory

    # ---- values
    def value(self, node: Node) -> Value:
        """Visits an expression; gives the class of a pointer or struct."""
        kind, ctype = node['kind'], type_of(node)
        if kind in WRAPPERS:
            return self.value(parts(node)[0])
        if isinstance(ctype, Float):
            raise self.refuse(node, FLOATING)
        if isinstance(ctype, Pointer):
            address = self.device_address(node)
            if address is not None:
                found = PointerClass(self.memory_of_type(ctype.to))
                found.target.root().peripheral = bool(address) or found.target.root().peripheral
                return self.made(node, found)
        if self.constant(node) is not None:
            return None
        if is_cast(node):
            return self.cast(node, node['castKind'], parts(node)[0], ctype)
        visit: Optional[Callable[[Node, CType], Value]] = getattr(self, 'value_' + kind, None)
        if visit is not None:
            return visit(node, ctype)
        if kind in LVALUES:
            memory = self.lvalue(node)
            return memory if isinstance(ctype, RecordType) else None
        if kind in ('IntegerLiteral', 'CharacterLiteral', 'UnaryExprOrTypeTraitExpr', 'ImplicitValueInitExpr'):
            return self.made(node, PointerClass(self.memory_of_type(ctype.to))) if isinstance(ctype, Pointer) else None
        raise self.refuse(node, {'FloatingLiteral': FLOATING, 'VAArgExpr': VARIADIC,
                                 'BinaryConditionalOperator': 'the operator ?: without a middle: name the value in it',
                                 'OffsetOfExpr': 'offsetof in a form that the dump does not tell'}.get(kind, f'this expression ({kind})'))

    def cast(self, node: Node, cast: str, operand: Node, ctype: CType) -> Value:
        """A cast, which clang's tree has for every change of a type."""
        if cast == 'LValueToRValue':
            memory = self.lvalue(operand)
            if isinstance(ctype, Pointer):
                return self.pointer_in(memory)
            return memory if isinstance(ctype, RecordType) else None
        if cast == 'ArrayToPointerDecay':
            return self.made(node, PointerClass(self.lvalue(operand)))
        if cast in ('FunctionToPointerDecay', 'BuiltinFnToFnPtr'):
            operand = peel(operand)
            if operand['kind'] == 'UnaryOperator' and operand['opcode'] == '*':
                return self.value(operand['inner'][0])
            return self.made(node, PointerClass(self.lvalue(operand)))
        if cast == 'BitCast':
            return self.pointer_cast(node, operand, ctype)
        if cast == 'NullToPointer' and isinstance(ctype, Pointer):
            return self.made(node, PointerClass(self.memory_of_type(ctype.to)))
        if cast == 'IntegralToPointer':
            raise self.refuse(node, RUNTIME_ADDRESS)
        if cast in ('PointerToIntegral', 'PointerToBoolean'):
            self.need_number(self.value(operand), 2 if cast == 'PointerToIntegral' else 1)
            return None
        if cast.startswith('Floating') or cast.endswith('Floating') or 'Complex' in cast:
            raise self.refuse(node, FLOATING)
        if cast == 'NoOp':
            return self.lvalue(operand) if node.get('valueCategory') == 'lvalue' else self.value(operand)
        if cast in ('IntegralCast', 'IntegralToBoolean', 'ToVoid', 'LValueBitCast', 'ToUnion', 'BooleanToSignedIntegral'):
            if node.get('valueCategory') == 'lvalue' or operand.get('valueCategory') == 'lvalue':
                self.lvalue(operand)
            else:
                self.value(operand)
            return None
        raise self.refuse(node, f'this cast ({cast})')

    def pointer_cast(self, node: Node, operand: Node, ctype: CType) -> Value:
        """A cast of one pointer type to another."""
        if not isinstance(ctype, Pointer):
            raise self.refuse(node, 'this cast')
        member = self.container(node)
        value = self.value(member[0] if member else operand)
        if not isinstance(value, PointerClass):
            raise self.refuse(node, 'this cast')
        if member or ctype.to != VOID:
            self.join(value.memory(), self.memory_of_type(ctype.to))
        if not member and isinstance(ctype.to, Int):
            self.shapes.casts.append((node, value))
        return value

    def value_UnaryOperator(self, node: Node, ctype: CType) -> Value:
        """`&x`, `++x`, `!x` and the like."""
        symbol, operand = node['opcode'], parts(node)[0]
        if symbol == '&':
            return self.made(node, PointerClass(self.lvalue(peel(operand))))
        if symbol in ('++', '--'):
            memory = self.lvalue(operand)
            return self.pointer_in(memory) if isinstance(ctype, Pointer) else None
        if symbol == '!':
            self.test(operand)
            return None
        if symbol in ('__extension__', '+', '-', '~'):
            return self.value(operand)
        raise self.refuse(node, 'complex numbers' if symbol in ('__real', '__imag') else f'this operator ({symbol})')

    def value_BinaryOperator(self, node: Node, ctype: CType) -> Value:
        """Assignments, comparisons and arithmetic."""
        symbol = node['opcode']
        left, right = parts(node)
        if symbol == '=':
            memory, value = self.lvalue(left), self.value(right)
            if isinstance(type_of(left), Pointer):
                self.flow(self.pointer_in(memory), value)
                return self.pointer_in(memory)
            return memory if isinstance(type_of(left), RecordType) else None
        if symbol == ',':
            self.value(left)
            return self.value(right)
        if symbol in ('&&', '||'):
            self.test(left)
            self.test(right)
            return None
        one, other = self.value(left), self.value(right)
        self.count_addresses(symbol, left, right)
        if symbol in COMPARISONS:
            self.comparison(symbol, left, right, one, other)
            return None
        if isinstance(one, PointerClass) and isinstance(other, PointerClass):
            self.need_number(one, 2)
            self.need_number(other, 2)
            return None
        return one if isinstance(one, PointerClass) else other if isinstance(other, PointerClass) else None

    def comparison(self, symbol: str, left: Node, right: Node, one: Value, other: Value) -> None:
        """A comparison of pointers needs numbers; one with null less of them."""
        if not isinstance(one, PointerClass) or not isinstance(other, PointerClass):
            return
        if is_null(left) or is_null(right):
            self.need_number(other if is_null(left) else one, 1 if symbol in ('==', '!=') else 2)
            return
        self.need_number(one, 2)
        self.need_number(other, 2)
        self.join(one.memory(), other.memory())

    def count_addresses(self, symbol: str, left: Node, right: Node) -> None:
        """Marks addresses as numbers where they tell nothing of where things lie."""
        mask = self.constant(right)
        if symbol in COMPARISONS or symbol == '-' and address_as_number(left) and address_as_number(right):
            allow_number(left)
            allow_number(right)
        elif symbol in ('&', '%') and mask is not None and 0 <= mask <= 4096:
            allow_number(left)

    def value_CompoundAssignOperator(self, node: Node, ctype: CType) -> Value:
        """`x += e` and the like."""
        memory = self.lvalue(parts(node)[0])
        self.value(parts(node)[1])
        return self.pointer_in(memory) if isinstance(ctype, Pointer) else None

    def value_ConditionalOperator(self, node: Node, ctype: CType) -> Value:
        """`c ? a : b`."""
        self.test(parts(node)[0])
        one, other = self.value(parts(node)[1]), self.value(parts(node)[2])
        if isinstance(ctype, Pointer):
            found = PointerClass(self.new_memory())
            self.flow(found, one)
            self.flow(found, other)
            return self.made(node, found)
        if isinstance(one, Memory) and isinstance(other, Memory):
            self.join(one, other)
            return one
        return None

    def value_StmtExpr(self, node: Node, ctype: CType) -> Value:
        """`({ .. })`."""
        body = parts(parts(node)[0])
        found: Value = None
        for part in body:
            if part is body[-1] and part.get('_type') is not None:
                found = self.value(part)
            else:
                self.statement(part)
        return found

    def value_InitListExpr(self, node: Node, ctype: CType) -> Value:
        """`{ .. }`."""
        memory = self.memory_of_type(ctype)
        self.first_value(memory, ctype, node)
        return memory if isinstance(ctype, RecordType) else None

    def test(self, node: Node) -> None:
        """An expression of which only is asked whether it is 0."""
        self.need_number(self.value(node), 1)

    def container(self, node: Node) -> Optional[tuple[Node, int]]:
        """The pointer to the member, and its offset, of `(S *)((char *)p - offset)`."""
        return container(self, node)

    # ---- calls
    def value_CallExpr(self, node: Node, ctype: CType) -> Value:
        """A call, directly or by a pointer."""
        operands = parts(node)
        function = self.callee(node)
        if function is not None and function.body is None:
            return self.bodiless(node, function, ctype)
        signature = self.called(node, function)
        if len(operands) - 1 != len(signature.parameters) and not signature.ctype.variadic:
            raise self.refuse(node, f'a call with {len(operands) - 1} arguments of a function with {len(signature.parameters)} parameters')
        for number, operand in enumerate(operands[1:]):
            value = self.value(operand)
            if number < len(signature.parameters):
                if isinstance(value, PointerClass):
                    self.flow(self.pointer_in(signature.parameters[number]), value)
                elif value is not None:
                    self.join(signature.parameters[number], value)
        if isinstance(ctype, Pointer):
            return self.pointer_in(signature.result)
        return signature.result if isinstance(ctype, RecordType) else None

    def called(self, node: Node, function: Optional[Function]) -> Signature:
        """The class of the function that is called."""
        operands = parts(node)
        if function is not None:
            self.reach(function)
            if function.ctype.variadic:
                raise self.refuse(node, VARIADIC)
            return self.function_memory(function).root().functions[0]
        value, wanted = self.value(operands[0]), type_of(operands[0])
        if not isinstance(value, PointerClass) or not isinstance(wanted, Pointer):
            raise self.refuse(node, 'a call by something that is no pointer')
        count = parameter_count(wanted, len(operands) - 1)
        if self.signature_for(value.memory(), count) is None:
            self.join(value.memory(), self.memory_of_type(wanted.to))
        found = self.signature_for(value.memory(), count)
        if found is None:
            raise self.refuse(node, 'a call by a pointer whose parameters are not told: declare them in its type')
        return found

    def bodiless(self, node: Node, function: Function, ctype: CType) -> Value:
        """A call of a function that no file defines: those of memory and clang's own are known."""
        operands = parts(node)
        if function.name in MEMORY_FUNCTIONS:
            return self.memory_call(node, function.name, operands, ctype)
        for operand in operands[1:]:
            self.value(operand)
        if not function.name.startswith('__builtin_'):
            raise self.refuse(node, undefined(function.name))
        return None

    def memory_call(self, node: Node, name: str, operands: list[Node], ctype: CType) -> Value:
        """memcpy, memmove and memset."""
        to_node = stripped(operands[1])
        to = self.value(to_node)
        self.value(operands[3])
        count = self.constant(operands[3])
        if not isinstance(to, PointerClass):
            raise self.refuse(node, f'{name} to something that is no pointer')
        if 'set' in name:
            self.value(operands[2])
            self.shapes.copies.append(MemoryCopy(to, to_node, None, operands[2], count))
        else:
            from_node = stripped(operands[2])
            source = self.value(from_node)
            if not isinstance(source, PointerClass):
                raise self.refuse(node, f'{name} from something that is no pointer')
            if 'move' in name and (count is None or count != self.step_of(to_node)):
                self.need_number(to, 2)
                self.need_number(source, 2)
            self.shapes.copies.append(MemoryCopy(to, to_node, source, from_node, count))
        return self.made(node, to) if isinstance(ctype, Pointer) else None

    # ---- first values
    def first_value(self, memory: Memory, ctype: CType, node: Node) -> None:
        """Visits the first value of an object."""
        kind = node['kind']
        if kind == 'ImplicitValueInitExpr':
            return
        if kind == 'InitListExpr':
            self.first_values(memory, ctype, node)
        elif isinstance(ctype, Array):
            if kind == 'StringLiteral':
                if self.function is not None:
                    self.lvalue_StringLiteral(node)
            elif kind in ('CompoundLiteralExpr', 'ParenExpr'):
                self.first_value(memory, ctype, parts(node)[0])
            else:
                self.lvalue(node)
        else:
            value = self.value(node)
            if isinstance(ctype, Pointer):
                self.flow(self.pointer_in(memory), value)
            elif isinstance(ctype, RecordType) and isinstance(value, Memory):
                self.join(memory, value)

    def first_values(self, memory: Memory, ctype: CType, node: Node) -> None:
        """Visits first values in braces."""
        if isinstance(ctype, Array):
            for part in node.get('inner', node.get('array_filler', ())):
                self.first_value(memory, ctype.of, part)
        elif isinstance(ctype, RecordType):
            record = self.layouts.record(ctype)
            self.fields_of(record.key)
            if record.union:
                member = self.union_member(node, record)
                fields = [member] if member is not None else []
            else:
                fields = record.named_fields()
            self.each_field(fields, parts(node))
        else:
            for part in parts(node):
                self.first_value(memory, ctype, part)

    def each_field(self, fields: list[Field], values: list[Node]) -> None:
        """Visits the first values of fields."""
        for field, part in zip(fields, values):
            self.first_value(field.memory, field.ctype, part)

    # ---- statements
    def statement(self, node: Node) -> None:
        """Visits a statement; what is refused is told, and the visit goes on."""
        if not node or 'kind' not in node:
            return
        try:
            self._statement(node)
        except (Refusal, *UNKNOWN_FORM) as fault:
            refusal = as_refusal(fault)
            self.messages.error(refusal.what, refusal.place or node.get('_place'))
            self.shapes.refused.add(self.function)

    def _statement(self, node: Node) -> None:
        kind = node['kind']
        if kind == 'DeclStmt':
            for part in node['inner']:
                if part['kind'] == 'VarDecl':
                    self.declaration(part)
        elif kind == 'ReturnStmt':
            if node.get('inner'):
                self.result(node)
        elif kind in ('IfStmt', 'WhileStmt', 'DoStmt', 'ForStmt'):
            for part in node['inner']:
                if part and part.get('_type') is not None:
                    self.test(part)
                else:
                    self.statement(part)
        elif kind in ('CompoundStmt', 'SwitchStmt', 'CaseStmt', 'DefaultStmt', 'LabelStmt', 'AttributedStmt'):
            for part in node.get('inner', ()):
                if kind != 'CaseStmt' or part['kind'] != 'ConstantExpr':
                    self.statement(part)
        elif kind in ('NullStmt', 'BreakStmt', 'ContinueStmt', 'GotoStmt', 'GCCAsmStmt', 'MSAsmStmt') or kind.endswith(('Attr', 'Comment')):
            return
        elif kind == 'IndirectGotoStmt':
            raise self.refuse(node, 'a computed goto: write a switch')
        elif node.get('_type') is None:
            raise self.refuse(node, f'this statement ({kind})')
        elif node.get('valueCategory') == 'lvalue':
            self.lvalue(node)
        else:
            self.value(node)

    def declaration(self, node: Node) -> None:
        """A variable that is declared in a function."""
        if '_fault' in node:
            raise self.refuse(node, node['_fault'])
        variable: Variable = node['_variable']
        if variable.is_global:
            return
        memory, values = self.variable_memory(variable), content(node)
        if node.get('init') and values:
            self.first_value(memory, variable.ctype, values[-1])

    def result(self, node: Node) -> None:
        """`return e`."""
        value = self.value(node['inner'][0])
        assert self.function is not None
        result = self.function_memory(self.function).root().functions[0].result
        if isinstance(value, PointerClass):
            self.flow(self.pointer_in(result), value)
        elif value is not None:
            self.join(result, value)


def undefined(name: str) -> str:
    """What is told of a function or variable that no file defines."""
    if name in ('malloc', 'calloc', 'realloc', 'free'):
        return f'undefined reference to "{name}": there is no heap; use static objects'
    return f'undefined reference to "{name}"'


def address_as_number(node: Node) -> Optional[Node]:
    """The cast that makes a number of an address, below brackets and casts between integers; or nothing."""
    while node['kind'] == 'ParenExpr' or is_cast(node, 'IntegralCast'):
        node = node['inner'][0]
    return node if is_cast(node, 'PointerToIntegral') else None


def allow_number(node: Node) -> None:
    """Marks such a cast as one that tells nothing of where things lie."""
    found = address_as_number(node)
    if found is not None:
        found['_counted'] = True


def stripped(node: Node) -> Node:
    """A pointer argument without the casts to `void *` around it."""
    while True:
        node = peel(node)
        if not is_cast(node, 'BitCast'):
            return node
        to, source = type_of(node), type_of(node['inner'][0])
        if not isinstance(to, Pointer) or not (to.to == VOID or isinstance(to.to, Int)) or not isinstance(source, Pointer) or source.to == VOID:
            return node
        node = node['inner'][0]


def container(reading: Classes, node: Node) -> Optional[tuple[Node, int]]:
    """The pointer to the member, and its offset, of `(S *)((char *)p - offset)` where S has such a member there."""
    ctype = type_of(node)
    inner = peel(node['inner'][0])
    if not isinstance(ctype, Pointer) or not isinstance(ctype.to, RecordType) or inner['kind'] != 'BinaryOperator' or inner['opcode'] != '-':
        return None
    pointer, offset = peel(inner['inner'][0]), reading.constant(inner['inner'][1])
    if offset is None or not is_cast(pointer, 'BitCast'):
        return None
    bytes_type, member = type_of(pointer), type_of(pointer['inner'][0])
    if not isinstance(bytes_type, Pointer) or bytes_type.to not in (Int(1, False), Int(1, True)) or not isinstance(member, Pointer):
        return None
    record = reading.records.get(ctype.to.key)
    if record is None or record.fields is None:
        return None
    reading.layouts.record(ctype.to)
    for field in record.fields:
        same = field.ctype == member.to or isinstance(field.ctype, Array) and field.ctype.of == member.to
        if field.offset == offset and same:
            return pointer['inner'][0], offset
    return None

