#!/usr/bin/env python3
"""Writes the table of jobs that the crate `trials` runs (its stdin) and what it must print (its stdout).

The answers come from `reference.py`, which shares no code with the product. Each job stands in stdin behind a
line `NAME BYTES`, and is followed by a line feed.
"""
import pathlib

from reference import answer, there_and_back

ROOT = pathlib.Path(__file__).resolve().parent.parent
JOBS = []


def job(name, text):
    JOBS.append((name, text if isinstance(text, bytes) else text.encode()))


class Circuit:
    """a netlist under construction: each gate answers the net that it drives"""
    def __init__(self, words, width):
        self.words, self.width, self.lines, self.next = words, width, [], words * width

    def gate(self, name, *nets):
        self.lines.append(" ".join([name, *map(str, nets)]))
        self.next += 1
        return self.next - 1

    def chain(self, name, nets):
        net = nets[0]
        for other in nets[1:]:
            net = self.gate(name, net, other)
        return net

    def text(self, *outs):
        outs = list(outs) + [self.gate("zero")] * (self.width - len(outs)) if len(outs) < self.width else outs
        return "\n".join([f"words {self.words} {self.width}", *self.lines, "out " + " ".join(map(str, outs))]) + "\n"


def chained(words, width, name, count):
    c = Circuit(words, width)
    return c.text(c.chain(name, list(range(count))))


def filled(words, width, gates, last):
    return f"words {words} {width}\n" + "one\n" * gates + last


# the shipped examples
for path in sorted((ROOT / "examples").glob("*.job")):
    job(path.stem, path.read_bytes())

# too long, and just not
job("job_too_long_by_one", "field 7\n" + "x" * (16385 - 8))
job("job_much_too_long", "words 1 2\n" + "one\n" * 5000)
job("job_of_the_limit", "words 1 2\nout 0 1\n" + "x" * (16384 - 18))

# the field line
job("field_named", "field 19\nwords 1 4\nout 0 1 2 3\n")
job("field_of_another_polynomial", "field 299\nwords 1 8\nand 0 1\nzero\nout 8 9 9 9 9 9 9 9\n")
job("field_with_no_line_feed", "field 7")
job("field_with_no_number", "field\nwords 1 2\nout 0 1\n")
job("field_with_a_leading_zero", "field 07\nwords 1 2\nout 0 1\n")
job("field_of_four_digits", "field 1024\nwords 1 2\nout 0 1\n")
job("field_after_two_spaces", "field  7\nwords 1 2\nout 0 1\n")
job("field_with_a_sign", "field +7\nwords 1 2\nout 0 1\n")
job("field_with_a_second_number", "field 7 7\nwords 1 2\nout 0 1\n")
job("fields", "fields 7\nwords 1 2\nout 0 1\n")
job("second_field_line", "field 7\nfield 7\nwords 1 2\nout 0 1\n")
job("polynomial_0", "field 0\n")
job("polynomial_3", "field 3\nwords 1 2\nout 0 1\n")
job("polynomial_4", "field 4\nwords 1 2\nout 0 1\n")
job("polynomial_27_over_no_netlist", "field 27\n")
job("polynomial_511_over_junk", "field 511\njunk")
job("polynomial_512", "field 512\nwords 1 2\nout 0 1\n")
job("polynomial_999", "field 999\n")

# the words line
job("empty", "")
job("empty_after_the_field", "field 7\n")
job("line_feed_alone", "\n")
job("words_with_no_line_feed", "words 1 2")
job("words_in_capitals", "WORDS 1 2\nout 0 1\n")
job("words_after_a_space", " words 1 2\nout 0 1\n")
job("words_with_a_space_at_the_end", "words 1 2 \nout 0 1\n")
job("words_with_one_number", "words 2\nout 0 1\n")
job("words_with_a_carriage_return", "words 1 2\r\nout 0 1\n")
job("no_words", "words 0 2\nout 0 1\n")
job("four_words", "words 4 2\nout 0 1\n")
job("one_bit", "words 1 1\nout 0\n")
job("nine_bits", "words 1 9\nout 0 1 2 3 4 5 6 7 8\n")
job("sizes_999", "field 7\nwords 999 999\nout 0 1\n")
job("narrower_than_the_field", "field 11\nwords 1 2\nout 0 1\n")
job("wider_than_the_field", "field 7\nwords 3 8\nout 0 1\n")

# the other lines
job("gate_reads_its_own_net", "words 1 2\nnot 2\nout 0 1\n")
job("gate_reads_net_256", "words 1 2\nbuf 256\nout 0 1\n")
job("gate_reads_net_999", "words 1 2\nbuf 0\nbuf 1\nxor 3 999\nout 0 1\n")
job("last_gate_reads_its_own_net", filled(1, 2, 253, "not 255\nout 0 1\n"))
job("out_reads_an_undriven_net", "words 1 2\nor 0 1\nout 2 3\n")
job("last_out_reads_an_undriven_net", filled(1, 2, 254, "out 255 256\n"))
job("gate_with_too_few_nets", "words 1 2\nor 0\nout 0 1\n")
job("gate_with_too_many_nets", "words 1 2\nnot 0 1\nout 0 1\n")
job("zero_with_a_net", "words 1 2\nzero 0\nout 0 1\n")
job("unknown_gate", "words 1 2\nmux 0 1\nout 0 1\n")
job("words_twice", "words 1 2\nwords 1 2\nout 0 1\n")
job("out_too_short", "words 1 3\nout 0 1\n")
job("out_too_long", "words 1 2\nout 0 1 0\n")
job("out_with_no_line_feed", "words 1 2\nout 0 1")
job("out_of_wrong_form_at_the_last_line", filled(1, 2, 254, "out 0\n"))
job("no_out", "words 1 2\nand 0 1\n")
job("no_out_after_256_nets", filled(1, 2, 254, ""))
job("bytes_after_out", "words 1 2\nout 0 1\nx")
job("line_feed_after_out", "words 1 2\nout 0 1\n\n")
job("out_twice_after_256_nets", filled(1, 2, 254, "out 0 1\nout 0 1\n"))
job("net_255_is_driven", filled(1, 2, 254, "out 254 255\n"))
job("net_256_of_one_word", filled(1, 2, 255, "out 0 1\n"))
job("net_256_of_three_words", filled(3, 8, 233, "out 0 1 2 3 4 5 6 7\n"))
job("net_256_before_an_undriven_net", filled(1, 2, 254, "not 999\nout 0 1\n"))

# small circuits over several widths
job("or_of_both_bits", "words 1 2\nor 0 1\nzero\nout 2 3\n")
job("one_on_the_lowest_bit", "words 1 2\none\nzero\nout 2 3\n")
job("identity", "words 1 8\nout 0 1 2 3 4 5 6 7\n")
job("third_word", "words 3 2\nout 4 5\n")
job("swapped_bits", "words 1 3\nout 2 1 0\n")
job("equal_nets", "words 1 2\nand 0 0\nxor 1 1\nout 2 3\n")
job("one_net_on_every_output", "words 1 4\nxor 0 3\nout 4 4 4 4\n")
job("every_gate", "words 2 3\nand 0 3\nor 1 4\nxor 2 5\nnand 6 7\nnor 7 8\nxnor 6 8\nnot 9\nbuf 10\nzero\none\nxor 12 15\nand 13 16\nor 14 11\nout 16 17 18\n")
job("empty_card_of_zeros", "words 1 2\nzero\nout 2 2\n")
job("empty_card_by_cancelling", "words 2 5\nxor 3 3\nout 10 10 10 10 10\n")
job("full_adder", "words 3 2\nxor 0 2\nxor 6 4\nand 0 2\nand 6 4\nor 8 9\nout 7 10\n")

# limits
job("or_of_eight_bits", chained(1, 8, "or", 8))
job("or_of_nine_bits", chained(2, 8, "or", 9))
job("or_of_ten_bits", chained(2, 8, "or", 10))
job("nor_of_sixteen_bits", chained(2, 8, "nor", 16))
nor8 = Circuit(2, 8)
net = nor8.gate("not", nor8.chain("or", list(range(8))))
job("bit_terms_256", nor8.text(net, 0))
job("bit_terms_257", nor8.text(net, 8))
nands = Circuit(3, 3)
net = nands.chain("and", [nands.gate("nand", nands.gate("and", 3 * w, 3 * w + 1), 3 * w + 2) for w in range(3)])
job("card_rows_512_of_512", nands.text(net))
three = Circuit(3, 8)
net = three.chain("and", [0, 8, 16])
job("product_rows_512", three.text(net))
one = three.gate("one")
job("card_rows_513", three.text(net, one))
job("card_rows_513_by_a_bit", three.text(net, 0))
job("product_rows_past_512", chained(3, 4, "and", 12))
six = Circuit(2, 8)
job("product_rows_past_512_in_two_words", six.text(six.chain("and", [0, 1, 2, 8, 9, 10])))

stdin, stdout = b"", b""
for name, text in JOBS:
    stdin += f"{name} {len(text)}\n".encode() + text + b"\n"
    stdout += f"{name}\n{answer(text)}{there_and_back(text)}".encode()
(ROOT / "crates/trials/stdin").write_bytes(stdin)
(ROOT / "crates/trials/stdout").write_bytes(stdout)
print(len(JOBS), "jobs")
