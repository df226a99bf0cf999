"""Faults in the text of cut_log: each is a change of one of its sources, which the comparison has to notice."""

import os
import subprocess

SOURCES = "programs/cut_log"

# A source, its text, and what takes that text's place.
CHANGES = [
    ("log.c", "place <= start[4]", "place < start[4]"),
    ("log.c", "place <= start[4]", "place <= start[4] && log->count < 63"),
    ("log.c", "(place - 1) * RECORD, block, place)", "(place - 1) * RECORD, block, place - 1)"),
    ("log.c", "(place - 1) * RECORD, block, place)", "(place - 1) * RECORD, block, log->count)"),
    ("log.c", "(place - 1) * RECORD, block, place)", "(place - 1) * RECORD, block - 1, place)"),
    ("log.c", ".bank = p[18]", ".bank = p[19]"),
    ("log.c", ".thread = p[19]", ".thread = p[18]"),
    ("log.c", "load(p, 8)", "load(p, 4)"),
    ("log.c", "load(p + 8, 8)", "load(p + 8, 7)"),
    ("log.c", "load(p + 16, 2)", "load(p + 16, 1)"),
    ("log.c", "block[MARK_AT]", "block[MARK_AT + 1]"),
    ("log.c", "count += bytes[at + 4]", "count += 20"),
    ("selection.c", "kept->records[kept->count++] = log->records[i]", "kept->records[kept->count++] = log->records[log->count - 1 - i]"),
    ("selection.c", "throttle_cut_keeps(mask, i)", "throttle_cut_keeps(mask, 63 - i)"),
    ("selection.c", "throttle_cut_keeps(mask, i)", "throttle_cut_keeps(mask, i + 1)"),
    ("selection.c", "throttle_cut_keeps(mask, i)", "throttle_cut_keeps(mask, i) && i < 63"),
    ("selection.c", "{out[0], out[1]}", "{out[0], out[2]}"),
    ("selection.c", "r->thread, r->row, out", "0, r->row, out"),
    ("selection.c", "r->thread);", "0);"),
    ("selection.c", "record->answer == reply->answer && ", ""),
    ("report.c", '"opened", "bank", "rank", "row", "quota"', '"opened", "bank", "row", "rank", "quota"'),
    ("report.c", '"opened", "bank", "rank", "row", "quota"', '"row", "bank", "rank", "opened", "quota"'),
    ("report.c", "kind == DONE && answer == 0 ? ", "kind == DONE ? "),
    ("report.c", "kind == DONE && answer == 0 ? ", "answer == 5 ? "),
    ("report.c", " || wait != 0)", ")"),
    ("report.c", "answer >= THROTTLE_WAIT_BANK", "answer > THROTTLE_WAIT_BANK"),
    ("report.c", "answer <= THROTTLE_WAIT_ROW", "answer < THROTTLE_WAIT_ROW"),
    ("report.c", "r->tick, r->thread, r->bank)", "r->tick, r->bank, r->thread)"),
    ("report.c", "if (r->kind == REQUEST)", "if (r->kind <= DONE)"),
    ("report.c", "print_claim(r->kind, reply->answer, reply->wait)", "print_claim(r->kind, r->answer, reply->wait)"),
    ("report.c", "print_claim(r->kind, reply->answer, reply->wait)", "print_claim(r->kind, reply->answer, r->wait)"),
    ("report.c", "== THROTTLE_PROFILE_SMALL ? ", "== THROTTLE_PROFILE_LARGE ? "),
    ("report.c", "sizeof house) == 0", "sizeof house / 2) == 0"),
    ("report.c", 'printf(" %u%s", seeds[i]', 'printf(" %u%s", seeds[i / 16 * 16]'),
    ("report.c", "kept->count, log->count, log->count == 1", "log->count, kept->count, log->count == 1"),
    ("report.c", "print_difference(&kept->records[last],", "print_difference(&kept->records[0],"),
    ("report.c", "if (r->wait != reply->wait)", "if (r->wait > reply->wait)"),
    ("report.c", "print_place(&first)", "print_place(&kept->records[last])"),
    ("report.c", "print_both(&first, &reply)", "print_both(&first, &kept->replies[last])"),
    ("report.c", "i < kept->count; i++)\n        print_record", "i + 1 < kept->count; i++)\n        print_record"),
    ("new_log.c", "r->row, r->bank", "r->kind == DONE ? 0 : r->row, r->bank"),
    ("new_log.c", "i % THROTTLE_LOG_RECORDS", "i % 19"),
    ("new_log.c", "1 + i / THROTTLE_LOG_RECORDS, place + 1", "1, place + 1"),
    ("new_log.c", "r->tick, r->wait, r->row", "r->tick, kept->replies[i].wait, r->row"),
    ("new_log.c", "r->kind, r->answer", "r->kind, kept->replies[i].answer"),
    ("new_log.c", "(size_t)(block - bytes) + THROTTLE_LOG_BLOCK", "(size_t)(block - bytes)"),
    ("refusals.c", "are_sound(in, middle + 1)", "are_sound(in, middle)"),
    ("refusals.c", "in->length % THROTTLE_LOG_BLOCK", "in->length"),
    ("refusals.c", "code == 0 || code == THROTTLE_MANY_RECORDS", "code == 0"),
    ("refusals.c", " || code == THROTTLE_NO_DIFFERENCE", ""),
    ("refusals.c", "number == CUT_SHORT && in->length == 0", "number == CUT_SHORT && in->length < 512"),
    ("cut_log.c", "return REFUSED", "return CUT_DOWN"),
    ("cut_log.c", "select_records(&kept, &log, out[0])", "select_records(&kept, &log, out[0] & -out[0])"),
]


def changed_programs(compiler, objects, folder):
    """A name and a program for each change. The objects are those of the sources without a change, and what they are linked with."""
    for number, (source, old, new) in enumerate(CHANGES):
        with open(f"{SOURCES}/{source}", encoding="ascii") as file:
            text = file.read()
        assert text.count(old) == 1, f"{source} has not one {old!r}"
        changed, program = f"{folder}/{source}", f"{folder}/changed-{number}"
        with open(changed, "w", encoding="ascii") as file:
            file.write(text.replace(old, new))
        others = [name for name in objects if os.path.basename(name) != source.replace(".c", ".o")]
        subprocess.run([compiler, "-std=c11", "-w", "-Iinclude", f"-I{SOURCES}", changed, *others, "-o", program], check=True)
        yield f"{source}: {new!r} for {old!r}", program
        os.remove(program)
