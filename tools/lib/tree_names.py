"""Writes the file specs/Tree.antt of each crate that has one, from one table, for `tools/pages`.

Such a file gives the types of the tree short names, so that definitions and proofs of its crate can import them from one place. A
type has its own name, and the variants of an enum are behind a word of WORDS. For example the name `Index` of the table becomes

    pub use Rattle.wast_base.specs.declared.ids.Index.{Index}

and the word `index`, behind which `index.Id` and `index.Num` are, becomes

    pub use Rattle.wast_base.specs.declared.ids.Index.TheVariants as index

Each crate has a file of its own, with the names that it needs. In which crate and file a type is declared is read from the sources
of wast_base and wast_tree_nodes.
"""

import re

import sources

# The crates that declare the types.
HOMES = ("wast_base", "wast_tree_nodes")

# The crates that take the names from the file of wast_tree_map, if it has them.
ABOVE_MAP = (
    "wast_resolve_laws", "wast_resolve_rules", "wast_resolve_core_types", "wast_resolve_names", "wast_resolve_spaces", "wast_resolve_passes",
    "wast_expand_keys", "wast_expand_types",
)

# The word of each enum, behind which its variants are.
WORDS = dict(
    pair.split("=")
    for pair in """
index=Index form=Form space=Space value=ValType heap=HeapType abstract=AbstractHeapType storage=StorageType inner=InnerTypeKind
bare=BareOp plain=Plain caught=TryTableCatchKind target=MemArgTarget access=MemArgOrdering v128=V128Const handle=Handle
ordering=Ordering instr=Instruction tag=TagType import_items=ImportItems kind=ItemKind elem=ElemKind payload=ElemPayload
data_kind=DataKind bytes=DataVal func=FuncKind table=TableKind memory=MemoryKind global=GlobalKind tag_kind=TagKind
export=ExportKind custom=Custom custom_place=CustomPlace anchor=CustomPlaceAnchor dylink=Dylink0Subsection field=ModuleField
""".split()
)

# The crates that have all the names of another one.
SAME = {"wat_syntax": "wast_tree_nodes"}

# The word of a type whose own name is a word of the language of definitions.
RENAMED = {"ty": "Type"}

# The first line of each file; that of most crates is the last one.
HEADS = {
    "wast_tree_nodes": "-- Short names of the AST types, so that definitions can match on them: `index.Num` is the variant `Num` of `Index`.",
    "wast_tree_build": "-- Short names of the AST types, as in wast_tree_nodes, so that definitions can match on them.",
    "wast_tree_visit": "-- Short names of the AST types, as in wast_tree_nodes, so that definitions can match on them.",
    "wast_tree": "-- Short names of the AST types, as in wast_tree_nodes, so that definitions can match on them.",
    "wast_core_name_section": "-- The types of the tree under one roof, as in wast_tree_nodes, with what names are read of: each type by its name, the variants"
    " of an enum behind a word.",
    "wast_valid_tree": "-- Short names of the types of the AST, so that definitions can match on them: `index.Num` is the variant `Num` of `Index`.",
    "": "-- The types of the tree under one roof, as in wast_tree_nodes: each type by its name, the variants of an enum behind a word.",
}

# The names that each crate has, in the order of its file. The order, and a name that occurs twice, say nothing: they are as they are
# so that no proof is done anew, because a proof is kept as long as no file that it reads has changed.
TABLE = """
wast_tree_nodes:
    Span Id Index index NameAnnotation Form form Space space ValType value RefType HeapType heap AbstractHeapType abstract
    StorageType storage StructField StructType ArrayType FunctionType ContType TypeUse InnerTypeKind inner TypeDef ty Rec BareOp
    bare Plain plain BlockType BrTableIndices TryTable TryTableCatch TryTableCatchKind caught TableArg MemoryArg MemoryInit
    MemoryCopy TableInit TableCopy CallIndirect SelectTypes MemArg MemArgTarget target MemArgOrdering StructAccess ArrayNewFixed
    ArrayNewData ArrayNewElem ArrayFill ArrayCopy ArrayInit RefTest RefCast RefCastDescEq BrOnCast BrOnCastFail BrOnCastDescEq
    BrOnCastDescEqFail LaneArg LoadOrStoreLane V128Const I8x16Shuffle v128 ContBind Switch Resume ResumeThrow ResumeThrowRef
    ResumeTable Handle handle Ordering ordering Ordered F32 F64 Instruction instr BranchHint Expression Limits TableType
    MemoryType GlobalType TagType tag Imports ImportItems import_items ItemSig ItemKind kind Elem ElemKind elem ElemPayload
    payload Data DataKind data_kind DataVal bytes InlineExport InlineImport Local FuncKind func Func Table TableKind table
    Memory MemoryKind memory Global GlobalKind global Tag TagKind tag_kind ExportKind export Export Custom custom
    RawCustomSection CustomPlace custom_place CustomPlaceAnchor anchor Producers Dylink0 Dylink0Subsection dylink ModuleField
    field

wast_resolve_laws:
    Span Id Index NameAnnotation Space ValType RefType HeapType StructField FunctionType TypeUse InnerTypeKind TypeDef Rec
    BrTableIndices TryTable TryTableCatch MemArg MemArgTarget Instruction Expression TagType ImportItems ItemSig ItemKind
    ElemKind ElemPayload DataKind DataVal Table TableKind Memory MemoryKind Global GlobalKind Tag TagKind Local FuncKind Func
    ExportKind ModuleField Handle ResumeTable Custom Dylink0Subsection index space value heap inner ty target instr tag
    import_items kind elem payload data_kind table memory global tag_kind func export field form handle custom dylink Form

wast_core_conv:
    Id Index index NameAnnotation Space space ValType value RefType HeapType heap AbstractHeapType abstract StorageType storage
    StructField StructType ArrayType FunctionType TypeUse InnerTypeKind inner TypeDef ty Rec BlockType BrTableIndices TryTable
    TryTableCatch TryTableCatchKind caught TableArg MemoryArg MemoryInit MemoryCopy TableInit TableCopy CallIndirect SelectTypes
    MemArg MemArgTarget target MemArgOrdering F32 F64 Instruction instr BranchHint Expression TableType MemoryType GlobalType
    TagType tag Imports ImportItems import_items ItemKind kind Elem ElemKind elem ElemPayload payload Data DataKind data_kind
    Local FuncKind func Func Table TableKind table Memory MemoryKind memory Global GlobalKind global Tag ExportKind export
    Export ModuleField field StructAccess ContType V128Const v128 ResumeTable Handle handle Ordering ordering MemArgOrdering
    access Form form Custom custom Dylink0Subsection dylink

wast_core:
    Id Index index NameAnnotation Space space ValType value RefType HeapType heap abstract StorageType StructField
    FunctionType TypeUse InnerTypeKind inner TypeDef ty BlockType MemArg TryTableCatch Instruction instr BranchHint
    Expression TableType GlobalType TagType tag ImportItems import_items ItemSig ItemKind kind ElemKind elem ElemPayload
    payload DataKind data_kind bytes Local FuncKind func Func TableKind table Memory MemoryKind memory GlobalKind global
    export Custom custom CustomPlace custom_place CustomPlaceAnchor anchor dylink ModuleField field

wast_valid_tree:
    Index index ValType value RefType HeapType heap AbstractHeapType abstract FunctionType MemArg MemArgTarget target
    MemArgOrdering Instruction instr

wast_core_sections:
    Id Index space form FunctionType TypeUse ty Rec Instruction instr BranchHint Expression GlobalType Imports ImportItems
    import_items ItemSig Elem Data FuncKind func Func Table TableKind table Memory Global GlobalKind global Tag Export
    Custom CustomPlace custom_place CustomPlaceAnchor anchor ModuleField field

wast_expand_inline:
    Span Id Index index NameAnnotation Space space RefType heap abstract FunctionType TypeUse Instruction instr Expression
    Limits TableType MemoryType tag import_items ItemKind kind elem ElemPayload payload data_kind DataVal bytes InlineExport
    InlineImport FuncKind func Func Table TableKind table Memory MemoryKind memory Global GlobalKind global Tag TagKind tag_kind
    ExportKind export ModuleField field

wast_resolve_rules:
    Span Id Index NameAnnotation Space ValType RefType HeapType StructField FunctionType TypeUse InnerTypeKind BlockType
    TryTableCatch TryTableCatchKind Instruction Expression MemoryType Local FuncKind ModuleField Handle ResumeTable Custom
    Dylink0Subsection index space value heap storage inner bare plain caught instr tag import_items kind elem payload table
    memory global tag_kind func field form handle custom dylink

wast_tree_build:
    BlockType Instruction instr bytes

wast_tree_map:
    Span Id Index index NameAnnotation Space space ValType value RefType HeapType heap AbstractHeapType abstract StorageType
    storage StructField StructType ArrayType FunctionType TypeUse InnerTypeKind inner TypeDef ty Rec BareOp bare Plain plain
    BlockType BrTableIndices TryTable TryTableCatch TryTableCatchKind caught TableArg MemoryArg MemoryInit MemoryCopy TableInit
    TableCopy CallIndirect SelectTypes MemArg MemArgTarget target MemArgOrdering F32 F64 Instruction instr Expression Limits
    TableType MemoryType GlobalType TagType tag Imports ImportItems import_items ItemSig ItemKind kind Elem ElemKind elem
    ElemPayload payload Data DataKind data_kind DataVal bytes Table TableKind table Memory MemoryKind memory Global GlobalKind
    global Tag TagKind tag_kind Local FuncKind func Func ExportKind export Export ModuleField field StructAccess ResumeTable
    Handle handle form ContType Custom custom Dylink0Subsection dylink

wast_core_name_section:
    Id Index index NameAnnotation Space space ValType value heap abstract storage StructField FunctionType TypeUse InnerTypeKind
    inner ty BlockType Instruction instr TagType tag ItemSig ImportItems import_items ItemKind kind elem payload data_kind Local
    FuncKind func Func table global tag_kind ModuleField field

wast_resolve_core_types:
    Span Id Index NameAnnotation Space ValType RefType HeapType StorageType StructField StructType ArrayType FunctionType
    InnerTypeKind TypeDef index space inner ty form Form

wast_resolve_names:
    Span Id Index Space ValType RefType index space

wast_resolve_spaces:
    Span Space StructField ModuleField space ty field

wast_resolve_passes:
    Span Id Index NameAnnotation ValType RefType FunctionType TypeUse BlockType BrTableIndices Instruction Expression ItemSig
    Elem ElemKind ElemPayload DataKind TableKind Global Local FuncKind ModuleField Handle SelectTypes index space instr
    import_items elem payload data_kind table func field form handle

wast_resolve:
    Index index Space space ModuleField field Id ValType value HeapType heap FunctionType TypeUse BlockType TryTable
    TryTableCatch TryTableCatchKind caught BrTableIndices CallIndirect MemArgTarget target Instruction instr Expression Local
    FuncKind func Func form

wast_tree:
    Id Index index Form form Space space ValType value RefType heap abstract storage StructField FunctionType TypeUse inner
    TypeDef bare plain BlockType caught target MemArg ordering ResumeTable handle Instruction instr BranchHint Expression
    TableType GlobalType import_items kind elem ElemPayload payload bytes InlineImport func Func table memory global ModuleField
    field

wast_expand_keys:
    Span Id Index NameAnnotation ValType RefType HeapType AbstractHeapType FunctionType TypeUse InnerTypeKind TypeDef Expression
    ModuleField index space value heap abstract inner ty instr tag import_items kind global tag_kind func field

wast_expand_types:
    Id Index ValType RefType FunctionType TypeUse Rec BlockType BrTableIndices TryTable TryTableCatch SelectTypes Instruction
    Expression TagType ImportItems ItemKind Elem ElemPayload DataKind TableType GlobalType TableKind Global GlobalKind Local
    FuncKind Func ModuleField ResumeTable Handle ItemSig Custom index space ty instr import_items kind elem payload data_kind
    table global func field handle form custom InlineImport

wast_tree_visit:
    Span Id Index index Form form Space space RefType FunctionType TypeUse BlockType BrTableIndices TryTable TryTableCatch
    ResumeTable Handle handle Instruction Expression Local func Custom custom ModuleField field
"""


def names_of_crates():
    """The names of the table, by crates."""
    entries = re.findall(r"^(\w+):\n((?: .*\n)+)", TABLE, re.M)
    table = {crate: names.split() for crate, names in entries}
    return table | {crate: table[other] for crate, other in SAME.items()}


def homes():
    """The path of each type among the declared ones, by its name: `wast_base.specs.declared.ids.Index`."""
    return {
        item.name: f"{crate}.specs.declared.{item.path.stem}.{item.name}"
        for crate, item in sources.all_items()
        if crate in HOMES and item.kind in ("struct", "enum")
    }


def line_of(name, paths):
    """The line of a name."""
    if name in RENAMED:
        return f"pub use Rattle.{paths[RENAMED[name]]} as {name}"
    if name in WORDS:
        return f"pub use Rattle.{paths[WORDS[name]]}.TheVariants as {name}"
    return f"pub use Rattle.{paths[name]}.{{{name}}}"


def lines_above_map(names, passed_on, paths):
    """The lines of a crate that takes its names from the file of wast_tree_map: one of all types that this file has, and one of each
    other name."""
    words = {*WORDS, *RENAMED}
    types = [name for name in names if name in passed_on and name not in words]
    tree = "pub use Rattle.wast_tree_map.specs.Tree"
    yield f"{tree}.{{{', '.join(types)}}}"
    for name in names:
        if name not in passed_on:
            yield line_of(name, paths)
        elif name in words:
            yield f"{tree}.{name}"


def text_of(crate, table, paths):
    """The file of a crate."""
    if crate in ABOVE_MAP:
        lines = lines_above_map(table[crate], table["wast_tree_map"], paths)
    else:
        lines = [line_of(name, paths) for name in table[crate]]
    return "\n".join([HEADS.get(SAME.get(crate, crate), HEADS[""]), *lines, ""])


def path_of(crate):
    """Where the file of a crate is."""
    return sources.ROOT / "crates" / crate / "specs/Tree.antt"


def written():
    """Each file that is written, and its text."""
    table, paths = names_of_crates(), homes()
    return {path_of(crate): text_of(crate, table, paths) for crate in table}


def problems():
    """What is wrong with the table: a crate has such a file, and is not in it."""
    files = {path_of(crate) for crate in names_of_crates()}
    for crate in sources.crates():
        if path_of(crate).is_file() and path_of(crate) not in files:
            yield f"{path_of(crate).relative_to(sources.ROOT)} is not in the table of tools/lib/tree_names.py"
