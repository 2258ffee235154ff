"""Types and attributes at the limits of their ranges, widths, dimensions, depths and sizes; dictionaries in each order
of their keys; which keys are inherent to which operation; and which types are equal. mlir_work_cases.py makes golden
files of them: lines that set an attribute, and the module after them. The answers are those of the rules in Python."""
import itertools

from tests.generate.line_cases import Cases

OPERATION = b'"t.a"() : () -> ()\n'
SIGNS = ("i", "si", "ui")
WIDTHS = (1, 2, 7, 8, 9, 31, 32, 33, 63, 64, 65, 127, 128)
WORDS = """builtin.module builtin.unrealized_conversion_cast func.func func.call func.return arith.constant arith.addi
arith.subi arith.muli arith.shli arith.divsi arith.divui arith.remsi arith.remui arith.andi arith.ori arith.xori
arith.shrsi arith.shrui arith.maxsi arith.maxui arith.minsi arith.minui arith.cmpi arith.select arith.extsi arith.extui
arith.trunci arith.index_cast arith.index_castui scf.for scf.if scf.while scf.yield scf.condition memref.alloc
memref.dealloc memref.load memref.store sym_name sym_visibility function_type arg_attrs res_attrs callee value
overflowFlags predicate operandSegmentSizes alignment nontemporal public private nested""".split()
OTHER_WORDS = ("x", "X", "builtin.modul", "builtin.modules", "arith.addI", "sym_names", "callees")
TYPES = """i8 si8 ui8 i9 index ()->() (i8)->() ()->(i8) (i8,si8)->() (si8,i8)->() (i8)->(si8) (i8,i8)->() memref<i8>
memref<?xi8> memref<0xi8> memref<4xi8> memref<4xsi8> memref<4x?xi8> memref<?x4xi8> i128 ui128 si128 ()->(()->())
(()->())->() memref<4xindex>""".split()
KEYS = (("a", "b", "c"), ("a", "aa", "ab"), ("", "\\00", "\\00\\00"), ("Z", "a", "a\\C3\\A4"),
        ("~", "\\7F", "\\C3\\A4"), ("\\7F\\C3\\A4", "\\C3\\A4", "\\C3\\A4a"), ("callee", "sym_name", "value"),
        ("value", "valuf", "walue"), ("", "0", "\\C3\\BF"))


def ends(width):
    """Numbers around the ends of the ranges of a width."""
    half = 2 ** (width - 1)
    return sorted({n + k for n in (-2 * half, -half, 0, half, 2 * half) for k in (-2, -1, 0, 1, 2)})


def set_all(texts):
    """Lines that set an attribute to each text, under a key of its own."""
    return [f"set-attr #1 k{number} {text}" for number, text in enumerate(texts)]


def literals(cases):
    """Literals of each type, and the elements of arrays."""
    for sign, width in [*itertools.product(SIGNS, WIDTHS), ("index", 64)]:
        name = sign if sign == "index" else f"{sign}{width}"
        texts = [f"{number} : {name}" for number in [*ends(width), "-0", 2 ** 128 - 1, 2 ** 128, -2 ** 128]]
        cases.replied("ends-of-ranges", "A literal is accepted up to the ends of its type's range, and printed by its "
                      "sign.", set_all(texts), name)
    for sign, width in itertools.product(SIGNS, (1, 2, 3, 4)):
        texts = [f"{number} : {sign}{width}" for number in range(-17, 18)]
        cases.replied("narrow-literals", "Each number near the range of a narrow type.", set_all(texts),
                      f"{sign}{width}")
    for sign, width in itertools.product(SIGNS, (1, 8, 16, 32, 64, 128)):
        lists = [numbers for end in [*ends(width), -2 ** 63, 2 ** 63 - 1]
                 for numbers in ((end,), (0, end), (end, 0, 0))]
        texts = [f"array<{sign}{width}: {', '.join(map(str, numbers))}>" for numbers in lists]
        cases.replied("arrays", "The elements of an array are in the signed range of their type.", set_all(texts),
                      f"{sign}{width}")


def types(cases):
    """Widths, dimensions and equality of types."""
    widths = (0, 1, 2, 63, 64, 65, 127, 128, 129, 130, 255, 256, 257, 2 ** 31, 2 ** 32 - 1, 2 ** 32, 2 ** 32 + 8)
    cases.replied("widths", "Integer types have 1 to 128 bits.",
                  set_all(f"{sign}{width}" for sign in SIGNS for width in widths))
    sizes = ("?", 0, 4, 2 ** 63 - 1, 2 ** 63, 2 ** 64 - 1, 2 ** 64)
    cases.replied("dimensions", "A dimension is unknown, or at most 9223372036854775807.",
                  set_all(f"memref<{one}x{two}xi8>" for one in sizes for two in sizes))
    module = "".join(f'%{number} = "t.a"() : () -> ({ty})\n' for number, ty in enumerate(TYPES)).encode()
    count = range(1, len(TYPES) + 1)
    Cases(cases.case, cases.title, module).replied(
        "equal-types", "A value replaces one of the same type, and no other.",
        [f"replace %v{one}.0 %v{two}.0" for one in count for two in count])


def around(leaf, count, holders):
    """A text in so many arrays, dictionaries, or both in turn."""
    for number in range(count):
        is_array = holders == "arrays" or holders == "both" and number % 2 == 0
        leaf = f"[{leaf}]" if is_array else f"{{a = {leaf}}}"
    return leaf


def function(leaf, count):
    """A type in so many function types, as an operand and as a result in turn."""
    for number in range(count):
        leaf = f"({leaf}) -> ()" if number % 2 == 0 else f"() -> ({leaf})"
    return leaf


def depths(cases):
    """Terms as deep as they may be, and deeper."""
    for name, leaf in (("integers", "si8"), ("index", "index"), ("memrefs", "memref<4x?xi8>"),
                       ("functions", "() -> ()")):
        cases.replied("deep-types", "Types are at most 32 deep.",
                      set_all(function(leaf, count) for count in range(29, 34)), name)
    leaves = ("unit", "0 : si8", '"x"', "si8", "[]", "{}", "@a", "@a::@b", "array<i8>", "#arith.overflow<nsw>",
              "memref<4x?xi8>", "() -> ()", "() -> (() -> ())")
    for holders in ("arrays", "dictionaries", "both"):
        texts = [around(leaf, count, holders) for leaf in leaves for count in range(28, 34)]
        texts += [around(function("i8", count), 32 - count + more, holders) for count in (1, 16, 31)
                  for more in (-1, 0, 1)]
        cases.replied("deep-attributes", "Attributes are at most 32 deep, with the types in them.", set_all(texts),
                      holders)


def dictionaries(cases):
    """Dictionaries are sorted by the bytes of their keys, of which none is there twice."""
    for number, keys in enumerate(KEYS, 1):
        lists = [*itertools.permutations(keys), *itertools.permutations(keys, 2), *itertools.product(keys, repeat=3)]
        texts = ["{" + ", ".join(f'"{key}" = "{key}"' for key in some) + "}" for some in lists]
        cases.replied("orders-of-keys", "A dictionary is sorted by its keys; a key that is there twice is refused.",
                      set_all(texts), str(number))
    rows = ((1, 0, False), (1, 1, False), (31, 2, False), (1, 256, False), (1, 2, True), (1, 3, True), (1, 256, True),
            (1, 257, False), (1, 257, True), (32, 1, False), (32, 2, True), (32, 257, True), (31, 257, True),
            (31, 255, True))
    texts = []
    for depth, count, has_twin in rows:
        keys = [count - 1 if has_twin and index == 0 else index for index in range(count)]
        value = around("unit", depth - 1, "arrays")
        texts.append("{" + ", ".join(f"k{key:03} = {value}" for key in reversed(keys)) + "}")
    cases.replied("limits-of-dictionaries", "Dictionaries have at most 256 entries, and none twice.", set_all(texts))


def inherent_keys(cases):
    """Which keys are properties of which operation."""
    for number, word in enumerate((*WORDS, *OTHER_WORDS), 1):
        module = f'"{word}"() : () -> ()\n'.encode()
        Cases(cases.case, cases.title, module).replied(
            "inherent-keys", "An entry with an inherent key is a property of its operation.",
            [f"set-attr #1 {key} unit" for key in (*WORDS, *OTHER_WORDS)], str(number))


def all_cases(case, begin, title):
    """Makes all cases."""
    cases = Cases(case, title, OPERATION)
    for part in (literals, types, depths, dictionaries, inherent_keys):
        begin(f"runs/{part.__name__}")
        part(cases)
