"""Attributes: what changes nothing here is passed over, what changes the meaning is refused, and all others are told."""
from __future__ import annotations

from .common import Messages, Node

HARMLESS = set('''AlwaysInline NoInline Unused MaybeUnused Used Retain NoThrow Const Pure Format FormatArg NonNull ReturnsNonNull Restrict AllocSize AllocAlign
WarnUnusedResult WarnUnused Deprecated Unavailable Cold Hot C11NoReturn NoReturn CXX11NoReturn AnalyzerNoReturn Builtin NoBuiltin MayAlias FallThrough Visibility
TypeVisibility GNUInline Leaf Flatten OptimizeNone MinSize Sentinel NoDebug Artificial AssumeAligned Likely Unlikely NoInstrumentFunction NoSanitize
NoStackProtector NoProfileFunction EnumExtensibility FlagEnum NoDuplicate NoMerge NotTailCalled NoEscape Pcs CDecl StdCall AArch64VectorPcs Target NoSplitStack
DisableTailCalls Error DiagnoseIf Annotate Availability LoopHint Weak NoDeref Nodiscard Reinitializes BTFDeclTag ReturnsTwice StrictFP Noderef Counted CountedBy
Mode Suppress CodeSeg XRayInstrument PatchableFunctionEntry SpeculativeLoadHardening NoSpeculativeLoadHardening AlwaysDestroy NoDestroy Uninitialized
DLLExport DLLImport ARMInterrupt Interrupt Malloc Ownership Guarded'''.split())
LAYOUT = {'Packed', 'Aligned', 'MaxFieldAlignment'}
REFUSED = {
    'Alias': 'define a function that calls the other one',
    'IFunc': 'call the function that is meant',
    'WeakRef': 'call the function that is meant',
    'Cleanup': 'call the function where the block ends',
    'Constructor': 'call the function at the beginning of main',
    'Destructor': 'call the function at the end of main',
    'Naked': 'write the function in C',
    'TransparentUnion': 'pass the member that is meant',
    'ScalarStorageOrder': 'swap the bytes by __builtin_bswap32',
}


def check_attributes(node: Node, messages: Messages, layout: bool = False) -> None:
    """Tells of each attribute of a declaration that is not followed; `layout`: those of alignment and packing are."""
    for part in node.get('inner', ()):
        kind = part.get('kind', '')
        if not kind.endswith('Attr') or part.get('implicit') or part.get('inherited'):
            continue
        name = kind[:-4]
        if name in HARMLESS or name.endswith('Interrupt') or layout and name in LAYOUT:
            continue
        place = part.get('_place') or node.get('_place')
        if name in REFUSED:
            messages.error(f'attribute {name}: {REFUSED[name]}', place)
        else:
            messages.warning(f'attribute {name} of "{node.get("name", "_")}" is ignored', place)
