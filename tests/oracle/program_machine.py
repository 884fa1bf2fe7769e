"""The program file (document 02, L3) read a third time, by a machine that takes each byte once.

`program(data)` answers as in second_program.py. It shares nothing with that reading, so that a slip in one shows against the other:
no pass over a line comes before another, nothing is looked up ahead, and the first refusal met is the answer.
"""

# What covers the byte in hand.
BARE, QUOTED, DATA, DATA_QUOTED, REM = range(5)


class Refused(Exception):
    pass


class Machine:
    """Where it stands: the part of the file, the shade, and one of 16 waits, each a method that takes a seen byte and gives the next."""

    def __init__(self):
        self.place, self.part, self.low = 0, self.load_low, 0
        self.rows = ["(module 0"]
        self.line_index, self.last, self.statements = 0, -1, 0

    def refuse(self, number, place=None):
        raise Refused(number, self.place if place is None else place)

    # The parts of the file; each takes a byte and gives the next part.

    def load_low(self, byte):
        return self.load_high

    def load_high(self, byte):
        return self.link_low

    def link_low(self, byte):
        self.low = byte
        return self.link_high

    def link_high(self, byte):
        return self.number_low if byte or self.low else self.over

    def number_low(self, byte):
        self.low = byte
        return self.number_high

    def number_high(self, byte):
        self.line = byte * 256 + self.low
        if self.line >= 64000:
            self.refuse(35, self.place - 1)
        self.shade, self.wait = BARE, self.start
        self.depth = self.open = 0
        self.too_deep = self.too_many = False
        self.rows.append("(line %d" % self.line)
        return self.body

    def body(self, byte):
        if byte == 0:
            self.seen(byte)
            return self.line_over()
        if self.shade == BARE:
            if byte == 0x22:
                self.shade = QUOTED
            elif byte == 0x83:
                self.shade = DATA
            elif byte == 0x8F:
                self.shade = REM
            if byte != 0x20:
                self.seen(byte)
        elif self.shade == QUOTED:
            if byte == 0x22:
                self.shade = BARE
        elif self.shade == DATA:
            if byte == 0x22:
                self.shade = DATA_QUOTED
            elif byte == 0x3A:
                self.shade = BARE
                self.seen(byte)
        elif self.shade == DATA_QUOTED:
            if byte == 0x22:
                self.shade = DATA
        return self.body

    def over(self, byte):
        return self.over

    def line_over(self):
        if self.line <= self.last:
            self.refuse(4, self.line_index)
        if self.line_index >= 1024:
            self.refuse(5, self.line_index)
        if self.statements > 4096:
            self.refuse(6, self.line_index)
        if self.too_deep:
            self.refuse(7, self.line_index)
        if self.too_many:
            self.refuse(8, self.line_index)
        self.rows += [")"] * (2 * self.open + 1)
        self.last, self.line_index = self.line, self.line_index + 1
        return self.link_low

    # A line's seen bytes.

    def seen(self, byte):
        if byte == 0x64:
            self.refuse(34)
        self.wait = self.wait(byte)

    def node(self, *rows):
        self.rows += rows
        self.statements += 1
        self.too_deep |= self.depth > 16

    def expect(self, word, wait):
        """A statement that needs items begins."""
        self.word, self.items = word, []
        return wait

    def begin(self, byte, wait):
        """The first byte of a number or a name."""
        self.first, self.value, self.text = self.place, byte - 0x30, chr(byte)
        return wait

    def listed(self, form):
        self.node(form % " ".join(self.items))
        self.too_many |= len(self.items) > 64

    # The 16 waits.

    def start(self, byte):
        if byte in (0x3A, 0):
            return self.start
        if byte == 0x81:
            return self.expect("for", self.name_due)
        if byte == 0x82:
            return self.expect("next", self.name_may_come)
        if byte == 0x89:
            return self.expect("goto", self.number_due)
        if byte == 0x8A:
            return self.expect("run", self.number_may_come)
        if byte == 0x8B:
            return self.in_if
        if byte == 0x8D:
            return self.expect("gosub", self.number_due)
        if byte == 0x91:
            return self.in_on
        if byte == 0xCB:
            return self.go
        self.node({0x80: "(stop)", 0x90: "(stop)", 0x8E: "(return)", 0x9C: "(clr)"}.get(byte, "(plain)"))
        return self.rest

    def rest(self, byte):
        return self.start if byte in (0x3A, 0) else self.rest

    def dead(self, byte):
        return self.dead

    def go(self, byte):
        if byte == 0xA4:
            return self.expect("goto", self.number_due)
        self.node("(plain)")
        return self.rest(byte)

    def in_if(self, byte):
        if byte == 0x89:
            return self.expect("if", self.number_due)
        if byte == 0xA7:
            return self.then
        if byte in (0x3A, 0):
            self.refuse(35)
        return self.if_go if byte == 0xCB else self.in_if

    def if_go(self, byte):
        return self.expect("if", self.number_due) if byte == 0xA4 else self.in_if(byte)

    def then(self, byte):
        if 0x30 <= byte <= 0x39:
            self.word = "if"
            return self.begin(byte, self.in_number)
        if byte == 0:
            self.refuse(35)
        self.node("(if", "(stmts")
        self.depth += 1
        self.open += 1
        return self.start(byte)

    def in_on(self, byte):
        if byte == 0x89:
            return self.expect("ongoto", self.number_due)
        if byte == 0x8D:
            return self.expect("ongosub", self.number_due)
        if byte in (0x3A, 0):
            self.refuse(35)
        return self.on_go if byte == 0xCB else self.in_on

    def on_go(self, byte):
        return self.expect("ongoto", self.number_due) if byte == 0xA4 else self.in_on(byte)

    def number_due(self, byte):
        if not 0x30 <= byte <= 0x39:
            self.refuse(35)
        return self.begin(byte, self.in_number)

    def number_may_come(self, byte):
        if 0x30 <= byte <= 0x39:
            return self.begin(byte, self.in_number)
        self.node("(run)")
        return self.rest(byte)

    def in_number(self, byte):
        if 0x30 <= byte <= 0x39:
            self.value = 10 * self.value + byte - 0x30
            if self.value >= 64000:
                self.refuse(35, self.first)
            return self.in_number
        if self.word == "if":
            self.node("(if", "(to %d)" % self.value, ")")
            return self.dead
        if self.word in ("ongoto", "ongosub"):
            self.items.append(str(self.value))
            if byte == 0x2C:
                return self.number_due
            self.listed("(" + self.word + " %s)")
        else:
            self.node("(%s %d)" % (self.word, self.value))
        return self.rest(byte)

    def name_due(self, byte):
        if not 0x41 <= byte <= 0x5A:
            self.refuse(35)
        return self.begin(byte, self.in_name)

    def name_may_come(self, byte):
        if 0x41 <= byte <= 0x5A:
            return self.begin(byte, self.in_name)
        self.node("(next plain *)")
        return self.rest(byte)

    def in_name(self, byte):
        if 0x41 <= byte <= 0x5A or 0x30 <= byte <= 0x39:
            if len(self.text) == 1:
                self.text += chr(byte)
            return self.in_name
        if byte in (0x24, 0x25):
            self.text += chr(byte)
            return self.kind_met
        return self.kind_met(byte)

    def kind_met(self, byte):
        self.items.append(self.text)
        if self.word == "for":
            self.node("(for %s static)" % self.text)
        elif byte == 0x2C:
            return self.name_due
        else:
            self.listed("(next plain %s)")
        return self.rest(byte)


def program(data):
    if len(data) > 65536:
        return 1, 0
    machine = Machine()
    try:
        for machine.place, byte in enumerate(data):
            machine.part = machine.part(byte)
    except Refused as refused:
        return refused.args
    if machine.part != machine.over:
        return 33, len(data)
    return "\n".join(machine.rows + [")", ""]).encode("ascii")
