"""Rewrites assembly texts that SPIM and MARS accept to what `tiger exec` accepts, with the line that each came from.

Only `$at`, `$k0` and `$k1` are used beside the registers of the text, as SPIM's assembler and system use them.
"""
import re

from routines import END, HI_AND_LO, SERVICES, START, service_routines

LABEL = re.compile(r"\s*([A-Za-z_.$][\w.$]*)\s*:(?!:)")
PART = re.compile(r'"(?:\\.|[^"\\])*"|\'(?:\\.|[^\'\\])\'|\([^)]*\)|[^\s,"\'()#]+|,')
CODE = re.compile(r'((?:"(?:\\.|[^"\\])*"|\'(?:\\.|[^\'\\])\'|[^"\'#])*)')
ITEM = re.compile(r'([^\s"]*)\s*(.*)')
ESCAPE = re.compile(r"\\([xX][0-9a-fA-F]{1,2}|[0-7]{1,3}|.)")
NUMBER = re.compile(r"-?(?:0[xX][0-9a-fA-F]+|\d+)")
MEMORY = re.compile(r"([A-Za-z_.][\w.$]*)?(?:\+?(-?\w+))?(?:\((\$\w+)\))?")
ZERO_TESTS = {"beqz": "beq", "bnez": "bne"}
ORDERS = {"blt": (False, "bne"), "bge": (False, "beq"), "bgt": (True, "bne"), "ble": (True, "beq")}
COMPARED = {"sgt": (True, False), "sge": (False, True), "sle": (True, True)}
SUMS = {"add": "addi", "addu": "addiu", "slt": "slti", "sltu": "sltiu", "and": "andi", "or": "ori", "xor": "xori"}
LEAST = {"sub": "addi", "subu": "addiu", "subi": "addi", "subiu": "addiu"}
THREE = {**SUMS, **{short: long for long, short in SUMS.items()}}
NAMED = {"n": "\n", "t": "\t", "r": "\r"}
# What says nothing of code or data, of SPIM, MARS and gcc.
DROPPED = set(
    ".globl .global .extern .ent .end .set .file .section .type .size .ident .loc .previous .abicalls .option .frame .mask"
    " .fmask .cpload .cprestore .nan .module .gnu_attribute .weak .local .hidden .insn .cfi_startproc .cfi_endproc"
    " .cfi_def_cfa_offset .cfi_offset .cfi_restore .cfi_def_cfa .cfi_def_cfa_register .err .name .version".split()
)
# Directives of gcc by those that are there.
ALIKE = {".4byte": ".word", ".long": ".word", ".2byte": ".half", ".short": ".half", ".hword": ".half", ".string": ".asciiz"}
ALIKE |= {".skip": ".space", ".zero": ".space", ".p2align": ".align"}
STATICS, CODE_BEGIN = 0x10010000, 0x00400000
ACCESSES = "lw lb lbu sw sb lh lhu sh la ulw ulh ulhu usw ush".split()
LINKED = {"bgezal": "bgez", "bltzal": "bltz"}
FLOATING = re.compile(r"[a-z0-9]+(\.[a-z0-9]+)*\.[sdw]|[lm][wtf]c1|[sl][wd]c1|m[tf]c1|bc1[tf]|mov[tf]|\.(float|double)")
V0 = "$v0", "$2"
ZERO = "$zero", "$0"


def number(word):
    """The number that an operand is: decimal, hexadecimal or a character; None where it is none."""
    if NUMBER.fullmatch(word):
        return int(word, 0) if "x" in word.lower() else int(word)
    return ord(text_of(word)) if word[:1] == "'" and len(text_of(word)) == 1 else None


def text_of(quoted):
    """The characters between quotes, with SPIM's escapes and MARS's."""

    def meant(found):
        it = found[1]
        return chr(int(it[1:], 16)) if it[0] in "xX" else chr(int(it, 8) % 256) if it[0] in "01234567" else NAMED.get(it, it)

    return ESCAPE.sub(meant, quoted[1:-1])


def is_short(value):
    return value is not None and -32768 <= value <= 32767


def fits(short, value):
    """Whether a number goes into the field of an instruction."""
    return 0 <= value <= 65535 if short in ("andi", "ori", "xori") else is_short(value)


def operands(rest):
    """The operands of an item, each with the register in parentheses or the sum that belongs to it."""
    found, is_apart = [], True
    for part in PART.findall(rest):
        if part == ",":
            is_apart = True
            continue
        part = re.sub(r"\s", "", part) if part[0] == "(" else "$fp" if part == "$s8" else part
        if found and not is_apart and (part[0] in "(:+" or found[-1][-1] in "+:"):
            found[-1] += part
        else:
            found.append(part)
        is_apart = False
    return found


class NotThere(Exception):
    """A line of a text asks for what has no rewriting: its number, its word, and what there is in its place."""


def rewritten(text, is_marked=False):
    """The rewriting of a text, with the routines that it asks for, which a first rewriting finds out."""
    needs = Needs()
    while True:
        made = Rewriting(text, needs, is_marked)
        if made.found == needs:
            return made
        needs = made.found


def without_dollars(text):
    """The text with labels as `$L3` of gcc under names that are no registers."""
    for name in set(re.findall(r"^\s*\$([A-Za-z_][\w.$]*)\s*:", text, re.M)):
        text = re.sub(r"\$" + re.escape(name) + r"(?![\w.$])", f"spim_{name}", text)
    return text


class Needs:
    """What a text needs behind it and before it: routines of services, hi and lo in memory, bytes above its stack."""

    def __init__(self):
        self.services, self.hi_and_lo, self.above_stack = set(), False, False

    def __eq__(self, other):
        return vars(self) == vars(other)


class Rewriting:
    """The rewritten lines, and for each the number of the line that it came from. Where the text is marked each instruction
    writes the number of its line first, in two bytes."""

    def __init__(self, text, needs, is_marked=False):
        self.is_marked, self.needs, self.found = is_marked, needs, Needs()
        self.lines, self.origins, self.at, self.locals = [], [], 0, 0
        self.constants, self.service, self.is_stack_met = {}, None, False
        self.statics, self.is_in_code, self.has_code = 0, True, False
        self.source = without_dollars(text).splitlines()
        self.has_main = any(re.match(r"(\s*[\w.$]+\s*:)*\s*main\s*:", line) for line in self.source)
        self.main = "spim_main" if needs.above_stack else "main"
        self.put(*START.splitlines()[1:] * needs.above_stack)
        for self.at, line in enumerate(self.source, 1):
            for part in self.parts(line):
                self.line(part)
        self.put(*END.splitlines()[1:], *(service_routines(needs.services) if needs.services else []))
        self.put(*HI_AND_LO.splitlines()[1:] * needs.hi_and_lo)

    @staticmethod
    def parts(line):
        """The items of a line, which `;` parts where it stands in no string, character or remark."""
        code = CODE.match(line)[1]
        begin, quoted = 0, re.sub(r'"(?:\\.|[^"\\])*"|\'(?:\\.|[^\'\\])\'', lambda it: "x" * len(it[0]), code)
        for at, byte in enumerate(quoted):
            if byte == ";":
                yield code[begin:at]
                begin = at + 1
        yield code[begin:]

    def put(self, *lines):
        self.lines += lines
        self.origins += [self.at] * len(lines)

    def local(self):
        """A new label."""
        self.locals += 1
        return f"spim_{self.locals}"

    def line(self, line):
        code = CODE.match(line)[1]
        found = LABEL.match(code)
        while found:
            self.put(f"{self.main if found[1] == 'main' else found[1]}:")
            self.service = None
            code = code[found.end() :]
            found = LABEL.match(code)
        word, rest = ITEM.match(code.strip()).groups()
        given = [self.constants.get(it, self.main if it == "main" else it) for it in operands(rest)]
        if FLOATING.fullmatch(word.lower()):
            raise NotThere(self.at, f"floating point isn't there, and {word} takes it")
        if word == ".eqv" and len(given) == 2:
            self.constants[given[0]] = given[1]
        elif len(given) == 2 and given[0] == "=":
            self.constants[word] = given[1]
        elif word.startswith("."):
            self.directive(word, given, rest)
        elif word:
            self.instruction(word.lower(), given)

    def values(self, given):
        """The operands of a directive as numbers and labels, with `value:count` written out."""
        for it in given:
            value, _, count = it.partition(":") if it[0] != "'" else (it, "", "")
            times = number(count) if count else 1
            if times is None or number(value) is None:
                yield it
            else:
                yield from [number(value)] * times

    def directive(self, word, given, rest):
        word = ALIKE.get(word, word)
        if word in (".text", ".data", ".rdata", ".sdata", ".bss", ".sbss", ".section"):
            self.segment(word, given)
        elif word in (".word", ".byte"):
            values = list(self.values(given))
            self.lay(4 if word == ".word" else 1, len(values) * (4 if word == ".word" else 1))
            self.put(f"{word} {', '.join(map(str, values))}")
        elif word == ".half":
            halves = list(self.values(given))
            wrong = [it for it in halves if not isinstance(it, int)]
            pairs = [f"{it & 255}, {it >> 8 & 255}" for it in halves if isinstance(it, int)]
            self.lay(2, 2 * len(halves))
            self.put(".align 1", f".byte {', '.join(pairs)}" if not wrong else f".half {rest}")
        elif word in (".ascii", ".asciiz"):
            for it in given:
                self.string(text_of(it) if it[0] == '"' else it, word == ".asciiz")
        elif word in (".comm", ".lcomm"):
            self.reserve(*given)
        elif word == ".balign":
            self.directive(".align", [str(max(number(given[0]), 1).bit_length() - 1)], "")
        elif word in (".space", ".align"):
            self.lay(*(1, number(given[0]) or 0) if word == ".space" else (1 << min(number(given[0]) or 0, 3), 0))
            self.put(f"{word} {given[0]}" if not self.is_in_code or word == ".space" else "")
        elif word not in DROPPED:
            self.put(f"{word} {rest}")

    def lay(self, unit, size):
        """Counts the bytes of statics: so many, after what a unit leaves free before them."""
        if not self.is_in_code:
            self.statics = -(-self.statics // unit) * unit + size

    def segment(self, word, given):
        """Goes on in a segment; where an address is given the bytes before it are left free."""
        self.is_in_code = (given[0] if word == ".section" and given else word).startswith(".text")
        address = number(given[0]) if given and word != ".section" else None
        self.put(".text" if self.is_in_code else ".data")
        if address is None or self.is_in_code and not self.has_code:
            return
        free = address - STATICS - self.statics
        if self.is_in_code or free < 0:
            raise NotThere(self.at, f"{word} takes no address before what stands already")
        if free:
            self.put(f".space {free}")
            self.statics += free

    def reserve(self, name, size, unit="4"):
        """Bytes under a name among the statics, whichever segment goes on."""
        back = self.is_in_code
        self.is_in_code = False
        self.lay(4, number(size))
        self.put(".data", ".align 2", f"{name}:", f".space {number(size)}", ".text" if back else ".data")
        self.is_in_code = back

    def string(self, text, is_ended):
        """A string as it can be written here, or its bytes."""
        self.lay(1, len(text) + is_ended)
        escapes = {"\n": "\\n", "\t": "\\t", '"': '\\"', "\\": "\\\\", "\0": "\\0"}
        written = [escapes.get(it, it if 32 <= ord(it) < 127 else None) for it in text]
        if None not in written:
            self.put(f'.ascii{"z" if is_ended else ""} "{"".join(written)}"')
        else:
            self.put(f".byte {', '.join(map(str, [*text.encode('latin-1'), *[0] * is_ended]))}")

    def instruction(self, word, given):
        """Rewrites an instruction, by the first of the ways that takes it; what none takes is left as it is. A text without
        main begins at its first instruction, as in MARS."""
        self.put(*[f"{self.main}:"] * (not self.has_main))
        self.has_main = self.has_code = True
        if not self.is_stack_met and any("$sp" in it or "$29" in it for it in given):
            self.is_stack_met = True
            self.found.above_stack |= word in ACCESSES and not given[-1].startswith("-")
        self.put(*self.mark() if self.is_marked else [])
        ways = (self.known, self.moves, self.branches, self.sums, self.kept, self.products, self.comparisons, self.turns)
        for way in (*ways, self.shifts, self.unaligned, self.accesses):
            try:
                lines = way(word, *given)
            except (ValueError, IndexError):
                continue
            if lines is not None:
                self.put(*lines)
                break
        else:
            self.put(" ".join([word, ", ".join(given)]))
        self.note_service(word, given)

    def mark(self):
        saved, back = ["move $k0, $a0", "move $k1, $v0", "li $v0, 11"], ["move $a0, $k0", "move $v0, $k1"]
        return [*saved, *(it for byte in divmod(self.at, 256) for it in (f"li $a0, {byte % 256}", "syscall")), *back]

    def note_service(self, word, given):
        """Keeps the number in $v0, where the lines so far tell it."""
        is_constant = word == "li" or word in ("ori", "addi", "addiu", "add", "addu", "or") and given[1:2] and given[1] in ZERO
        if given and given[0] in V0:
            self.service = number(given[-1]) if is_constant else None
            self.found.services |= {self.service} & set(SERVICES)
            self.found.hi_and_lo |= self.service == 36
        elif word in ("syscall", "jal", "jalr"):
            self.service = None

    def register(self, operand):
        """An operand as a register, and what loads it where it is a number."""
        value = number(operand)
        return (operand, []) if value is None else ("$zero", []) if value == 0 else ("$at", [f"li $at, {value}"])

    def known(self, word, *given):
        """A service that a routine may answer, `li` of a character, and what takes two registers."""
        if word == "syscall" and self.needs.services and (self.service is None or self.service in SERVICES):
            back = self.local()
            return [f"la $k1, {back}", "j spim_service", f"{back}:"]
        if word == "li" and number(given[1]) is not None:
            return [f"li {given[0]}, {number(given[1])}"]
        if word in ("not", "neg", "negu"):
            into, one = given
            return [f"nor {into}, {one}, $zero" if word == "not" else f"sub{word[3:]} {into}, $zero, {one}"]
        if word == "abs":
            into, one = given
            return [f"sra $at, {one}, 31", f"xor {into}, {one}, $at", f"subu {into}, {into}, $at"]
        return None

    def moves(self, word, *given):
        """Moves by a condition, counts of the bits in front, what gcc writes of an address, and two calls by a branch."""
        if word in ("movz", "movn"):
            into, one, test = given
            over = self.local()
            return [f"{'bne' if word == 'movz' else 'beq'} {test}, $zero, {over}", f"move {into}, {one}", f"{over}:"]
        if word in ("clz", "clo"):
            into, one = given
            turn, over = self.local(), self.local()
            begin = [f"move $k0, {one}" if word == "clz" else f"nor $k0, {one}, $zero", "li $at, 32", f"{turn}:"]
            loop = [f"beq $k0, $zero, {over}", "srl $k0, $k0, 1", "addiu $at, $at, -1", f"j {turn}", f"{over}:"]
            return [*begin, *loop, f"move {into}, $at"]
        if word in LINKED:
            one, target = given
            back = self.local()
            return [f"la $ra, {back}", f"{LINKED[word]} {one}, {target}", f"{back}:"]
        if word == "bal":
            return [f"jal {given[0]}"]
        if given and given[-1].startswith(("%hi(", "%lo(")):
            return self.halves(word, *given)
        return None

    @staticmethod
    def halves(word, *given):
        """An address in two halves: `la` has it whole, and its lower half adds nothing then."""
        label, base = re.fullmatch(r"%..\(([^)]*)\)(\(\$\w+\))?", given[-1]).groups()
        if word == "lui":
            return [f"la {given[0]}, {label}"]
        return [f"move {given[0]}, {given[1]}"] if word == "addiu" else [f"{word} {given[0]}, 0{base}"]

    def kept(self, word, *given):
        """hi and lo where a text sets them otherwise than by `mult` and `div`: then both stand in memory, as after each of
        those two. Products and quotients without signs."""
        if word in ("multu", "divu", "remu", "mthi", "mtlo", "mulou"):
            self.found.hi_and_lo = True
        if not self.needs.hi_and_lo:
            return None
        if word in ("mult", "multu") and len(given) == 2:
            return [f"mult {given[0]}, {given[1]}", "mfhi $at", *(self.unsigned(*given) if word == "multu" else []), *self.stored()]
        if word == "div" and len(given) == 2:
            return [f"div {given[0]}, {given[1]}", "mfhi $at", *self.stored()]
        if word in ("divu", "remu"):
            return self.quotients(word, *given)
        if word in ("mfhi", "mflo", "mthi", "mtlo"):
            load = "lw" if word[1] == "f" else "sw"
            return ["la $k1, spim_hi", f"{load} {given[0]}, {0 if word.endswith('hi') else 4}($k1)"]
        return None

    @staticmethod
    def unsigned(one, other):
        """Makes the upper word of a product in $at that of the product without signs."""
        for a, b in ((one, other), (other, one)):
            yield from (f"sra $k0, {a}, 31", f"and $k0, $k0, {b}", "addu $at, $at, $k0")

    @staticmethod
    def stored():
        return ["la $k1, spim_hi", "sw $at, 0($k1)", "mflo $at", "sw $at, 4($k1)"]

    def quotients(self, word, *given):
        """A quotient or remainder without signs, in hi and lo, and in a register where one is named first."""
        back = self.local()
        one, other = given[-2:]
        load = [f"li $at, {number(other)}"] if number(other) is not None else [f"move $at, {other}"]
        check = ["bne $at, $zero, " + back + "_", "break 7", back + "_:"] if len(given) == 3 else []
        call = [*load, *check, f"move $k0, {one}", f"la $k1, {back}", "j spim_divide", f"{back}:"]
        got = ["la $k1, spim_hi", f"lw {given[0]}, {4 if word == 'divu' else 0}($k1)"] if len(given) == 3 else []
        return [*call, *got]

    def turns(self, word, *given):
        """A turn by a register, bit by bit."""
        if word not in ("rol", "ror") or number(given[-1]) is not None:
            return None
        into, one, count = given
        turn, over = self.local(), self.local()
        bit = [f"srl $k0, {into}, 31", f"sll {into}, {into}, 1"] if word == "rol" else [f"sll $k0, {into}, 31", f"srl {into}, {into}, 1"]
        loop = [f"beq $at, $zero, {over}", *bit, f"or {into}, {into}, $k0", "addiu $at, $at, -1", f"j {turn}", f"{over}:"]
        return [f"andi $at, {count}, 31", f"move {into}, {one}", f"{turn}:", *loop]

    def unaligned(self, word, *given):
        """Loads and stores at any address, byte by byte."""
        if word not in ("ulw", "ulh", "ulhu", "usw", "ush"):
            return None
        register, *places = given
        load = self.accesses("la", "$k1", *places)
        if word[1] == "s":
            rest = [it for k in range(1, 4 if word == "usw" else 2) for it in (f"srl $at, {register}, {8 * k}", f"sb $at, {k}($k1)")]
            return [*load, f"sb {register}, 0($k1)", *rest]
        top = 3 if word == "ulw" else 1
        rest = [it for k in range(top - 1, -1, -1) for it in ("sll $at, $at, 8", f"lbu $k0, {k}($k1)", "or $at, $at, $k0")]
        return [*load, f"{'lb' if word == 'ulh' else 'lbu'} $at, {top}($k1)", *rest, f"move {register}, $at"]

    def branches(self, word, *given):
        """Branches by an order, by a number, or always."""
        kind = word.removesuffix("u")
        if word == "b":
            return [f"beq $zero, $zero, {given[0]}"]
        if word in ZERO_TESTS:
            one, target = given
            return [f"{ZERO_TESTS[word]} {one}, $zero, {target}"]
        if word in ("beq", "bne") or kind in ORDERS:
            one, other, target = given
            other, load = self.register(other)
            if word in ("beq", "bne"):
                return [*load, f"{word} {one}, {other}, {target}"]
            is_turned, branch = ORDERS[kind]
            pair = f"{other}, {one}" if is_turned else f"{one}, {other}"
            return [*load, f"slt{'u' if word != kind else ''} $at, {pair}", f"{branch} $at, $zero, {target}"]
        return None

    def sums(self, word, *given):
        """Three operands, of which the last may be a number, and the second left out."""
        if word not in THREE and word not in LEAST and word != "nor":
            return None
        into, one, other = given if len(given) == 3 else (given[0], *given)
        value = number(other)
        if value is None:
            return [f"{word} {into}, {one}, {other}"]
        short, long = (word, THREE.get(word)) if word.endswith(("i", "iu")) else (THREE.get(word), word)
        if word in LEAST:
            short, long, value = LEAST[word], {"subi": "sub", "subiu": "subu"}.get(word, word), -value
        if short and fits(short, value):
            return [f"{short} {into}, {one}, {value}"]
        value = -value if word in LEAST else value
        return [f"li $at, {value}", f"{long} {into}, {one}, $at"]

    def products(self, word, *given):
        """Products, quotients and remainders in a register; a divisor of 0 ends the run."""
        if word in ("mul", "mulo") and len(given) == 3:
            into, one, other = given
            other, load = self.register(other)
            return [*load, f"mult {one}, {other}", f"mflo {into}"]
        if word in ("div", "rem") and len(given) == 3:
            into, one, other = given
            over = self.local()
            check = [] if number(other) else [f"bne {other}, $zero, {over}", "break 7", f"{over}:"]
            other, load = self.register(other)
            return [*load, *check, f"div {one}, {other}", f"{'mflo' if word == 'div' else 'mfhi'} {into}"]
        return None

    def comparisons(self, word, *given):
        """Comparisons that give 0 or 1."""
        kind = word.removesuffix("u")
        if word not in ("seq", "sne") and kind not in COMPARED:
            return None
        into, one, other = given
        other, load = self.register(other)
        if kind in ("seq", "sne"):
            last = f"sltiu {into}, $at, 1" if kind == "seq" else f"sltu {into}, $zero, $at"
            return [*load, f"xor $at, {one}, {other}", last]
        is_turned, is_negated = COMPARED[kind]
        pair = f"{other}, {one}" if is_turned else f"{one}, {other}"
        return [*load, f"slt{'u' if word != kind else ''} {into}, {pair}", *[f"xori {into}, {into}, 1"] * is_negated]

    def shifts(self, word, *given):
        """A turn by a number, or a shift by a register: bit by bit."""
        if word in ("rol", "ror") and number(given[-1]) is not None:
            into, one, count = given
            left = number(count) % 32 if word == "rol" else -number(count) % 32
            return [f"sll $at, {one}, {left}", f"srl {into}, {one}, {-left % 32}", f"or {into}, {into}, $at"]
        kind = word.removesuffix("v")
        if kind not in ("sll", "srl", "sra"):
            return None
        into, one, count = given
        if number(count) is not None:
            return [f"{kind} {into}, {one}, {number(count)}"]
        turn, over = self.local(), self.local()
        loop = [f"{turn}:", f"beq $at, $zero, {over}", f"{kind} {into}, {into}, 1", "addiu $at, $at, -1", f"j {turn}", f"{over}:"]
        return [f"andi $at, {count}, 31", f"move {into}, {one}", *loop]

    def accesses(self, word, *given):
        """Loads, stores and `la`, at a label, a number, a register, or sums of these."""
        if word not in ACCESSES:
            return None
        register, *places = given
        found = MEMORY.fullmatch("".join(places))
        if not found:
            return None
        label, more, base = found.groups()
        more = number(more) if more else 0
        if more is None:
            return None
        if word == "la" and not base and not more:
            return [f"la {register}, {label}"] if label else [f"li {register}, 0"]
        if not label and is_short(more) and is_short(more + 1):
            return self.access(word, register, more, base or "$zero")
        load = [f"la $k1, {label}"] if label else [f"li $k1, {more}"]
        load += [f"addu $k1, $k1, {base}"] if base else []
        if label and not is_short(more):
            load[1:1] = [f"li $at, {more}", "addu $k1, $k1, $at"]
            more = 0
        return [*load, *self.access(word, register, more if label else 0, "$k1")]

    @staticmethod
    def access(word, register, place, base):
        if word == "la":
            return [f"addiu {register}, {base}, {place}"]
        if word in ("lh", "lhu"):
            upper = f"{'lb' if word == 'lh' else 'lbu'} $at, {place + 1}({base})"
            return [upper, f"lbu {register}, {place}({base})", "sll $at, $at, 8", f"or {register}, {register}, $at"]
        if word == "sh":
            return [f"sb {register}, {place}({base})", f"srl $at, {register}, 8", f"sb $at, {place + 1}({base})"]
        return [f"{word} {register}, {place}({base})"]
