"""Writes wrong variants of guc_live.h, each by one mistake that somebody could make: edits.py GUC_LIVE_H DIRECTORY
makes DIRECTORY/MISTAKE/guc_live.h for each and prints their names."""

import pathlib
import sys

FENCE_TAIL = """	GUC_FENCE_RELEASE(); /* the message's dwords before TAIL, which shows them */
	GUC_STORE_WORD(&live->tail, own->tail);
"""
FENCE_HEAD = """	GUC_FENCE_RELEASE(); /* the reads of the ring before HEAD, which frees it */
	GUC_STORE_WORD(&live->head, own->head);
"""
STORE_STATUS = "		GUC_STORE_WORD(&live->status, own->status);\n"
LOAD_STATUS = "	own->status = GUC_LOAD_ACQUIRE(&live->status);\n"
LOAD_HEAD = "	own->head = GUC_LOAD_ACQUIRE(&live->head);\n"
LOAD_TAIL = "	own->tail = GUC_LOAD_ACQUIRE(&live->tail);\n"
BROKEN = "code == GUC_OVERFLOW || code == GUC_MISMATCH || code == GUC_UNDERFLOW"
ALL_BACK = "	GUC_FENCE_RELEASE();\n	*live = *own;\n"
LOOKED = "	guc_live_status(desc, &own, code);\n"
TO_PUBLISH = "	code = guc_send_publish(s, &own, ring, n);\n"

# Name, text, what stands in its place.
EDITS = [
    ("tail_before_fence", FENCE_TAIL, "	GUC_STORE_WORD(&live->tail, own->tail);\n	GUC_FENCE_RELEASE();\n"),
    ("head_before_fence", FENCE_HEAD, "	GUC_STORE_WORD(&live->head, own->head);\n	GUC_FENCE_RELEASE();\n"),
    ("tail_without_fence", FENCE_TAIL, "	GUC_STORE_WORD(&live->tail, own->tail);\n"),
    ("tail_not_written", FENCE_TAIL, "	(void)live;\n	(void)own;\n"),
    ("head_read_twice", LOAD_HEAD, LOAD_HEAD + LOAD_HEAD),
    ("tail_read_twice", LOAD_TAIL, "	own->tail = GUC_LOAD_ACQUIRE(&live->tail) ? GUC_LOAD_ACQUIRE(&live->tail) : 0;\n"),
    ("tail_read_again_at_the_end", FENCE_TAIL, "	if (GUC_LOAD_ACQUIRE(&live->tail) == own->tail)\n		return;\n" + FENCE_TAIL),
    ("head_read_without_macro", LOAD_HEAD, "	own->head = *(const volatile uint32_t *)&live->head;\n"),
    ("status_read_last", LOAD_STATUS, ""),  # and again below
    ("all_16_words_read", LOAD_STATUS, "	*own = *live;\n" + LOAD_STATUS),
    ("status_not_written", STORE_STATUS, "		(void)live;\n		(void)own;\n"),
    ("status_without_fence", "		GUC_FENCE_RELEASE(); /* the read of the header before STATUS, which ends all */\n", ""),
    ("status_written_on_6", BROKEN, "code == GUC_BROKEN || " + BROKEN),
    ("status_not_written_on_9", BROKEN, "code == GUC_OVERFLOW || code == GUC_MISMATCH"),
    ("head_on_a_refusal", "	if (code == GUC_OK || code == GUC_MALFORMED)\n", "	if (code != GUC_MISMATCH)\n"),
    ("head_not_on_13", "	if (code == GUC_OK || code == GUC_MALFORMED)\n", "	if (code == GUC_OK)\n"),
    ("all_16_words_back", FENCE_TAIL, ALL_BACK),
    ("three_words_back", FENCE_TAIL, FENCE_TAIL + "	GUC_STORE_WORD(&live->head, own->head);\n	GUC_STORE_WORD(&live->status, own->status);\n"),
    ("head_for_tail", FENCE_TAIL, FENCE_TAIL.replace("own->tail", "own->head")),
    ("live_descriptor_lent", "guc_whole_send(s, &own, ring,", "guc_whole_send(s, desc, ring,"),
    ("wall_send_not_published", "	guc_live_sent(desc, &own, answer.code);\n", ""),
    ("wall_send_on_the_live_descriptor", "guc_wall_send(wall, table, records, s, &own, ring,", "guc_wall_send(wall, table, records, s, desc, ring,"),
    ("look_publishes", "guc_send_look(s, &own, ring, n, msg, msg_len);\n" + LOOKED,
     "guc_send_look(s, &own, ring, n, msg, msg_len);\n	guc_live_sent(desc, &own, code);\n"),
    ("receive_look_keeps_status", "guc_receive_look(r, &own, ring, n);\n" + LOOKED, "guc_receive_look(r, &own, ring, n);\n"),
    ("publish_reads", TO_PUBLISH, "	guc_live_words(desc, &own);\n" + TO_PUBLISH),
    # What stands for the macros where nobody defines them: interop/live/defaults alone can tell.
    ("default_load_plain", "__atomic_load_n((p), __ATOMIC_ACQUIRE)", "(*(p))"),
    ("default_store_plain", "__atomic_store_n((p), (v), __ATOMIC_RELAXED)", "(*(p) = (v))"),
    ("default_release_empty", "__atomic_thread_fence(__ATOMIC_RELEASE)", "((void)0)"),
    ("default_full_is_release", "__atomic_thread_fence(__ATOMIC_SEQ_CST)", "__atomic_thread_fence(__ATOMIC_RELEASE)"),
    ("publish_on_12", TO_PUBLISH + "	if (code == GUC_OK)\n", TO_PUBLISH + "	if (code == GUC_OK || code == GUC_OUT_OF_TURN)\n"),
]


def main():
    text = pathlib.Path(sys.argv[1]).read_text()
    for name, old, new in EDITS:
        if text.count(old) != 1:
            sys.exit(f"{name}: its text stands {text.count(old)} times in guc_live.h")
        wrong = text.replace(old, new)
        if name == "status_read_last":
            wrong = wrong.replace(LOAD_TAIL, LOAD_TAIL + LOAD_STATUS)
        place = pathlib.Path(sys.argv[2], name)
        place.mkdir()
        (place / "guc_live.h").write_text(wrong)
        print(name)


main()
