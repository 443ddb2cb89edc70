"""Wrong headers: include/histar.h with one thing turned, and with one guard taken away. Nothing proves the header, so the scripts
that the player in C plays have to tell each of the first from the true one, and the table of misuse each of the others."""
import re

# What is turned, and into what: the number of a call, a number or a label that is not written, an entry the wrong way round, and
# a number of the answer that is taken from the next place.
TURNS = (
    (r"(HISTAR_CALL_\w+) = (\d+),", lambda it: f"{it[1]} = {int(it[2]) % 42 + 1}," if int(it[2]) < 43 else None),
    (r"k->request\.numbers\[\d\] = (?!at|change|most|keeps)\w+;", lambda it: ""),
    (r"k->request\.(?:label|clearance|verify) = \*(\w+);", lambda it: f"(void){it[1]};"),
    (r"(k->request\.other_\w+) = (\w+)\.container\.id;", lambda it: f"{it[1]} = {it[2]}.object.id;"),
    (r"(k->request\.other_\w+) = (\w+)\.object\.id;", lambda it: f"{it[1]} = {it[2]}.container.id;"),
    (r"(k->answer\.|\banswer->)numbers\[(\d)\]", lambda it: f"{it[1]}numbers[{int(it[2]) + 1}]"),
    (r"\(n\[(\d)\]", lambda it: f"(n[{int(it[1]) + 1}]"),
)

# Guards, and what stands there without them: a line of the header each.
GUARDS = (
    ("    if (!histar_is_open(k)) return HISTAR_UNAVAILABLE;\n    if (histar_taken(k) && histar_taken_again(k, histar_stack())) return HISTAR_BUSY;\n    if (!histar_is_open(k)) return",
     "    if (histar_taken(k) && histar_taken_again(k, histar_stack())) return HISTAR_BUSY;\n    if (0) return"),
    ("    if (histar_taken(k) && histar_taken_again(k, histar_stack())) return HISTAR_BUSY;\n", "    (void)histar_taken(k);\n"),
    ("    if (histar_taken(k) && histar_taken_again(k, histar_stack())) return HISTAR_BUSY;\n", "    if (histar_taken(k)) return HISTAR_BUSY;\n"),
    ("    if (histar_taken(k) && histar_taken_to_close(k, stack, &is_left)) return HISTAR_BUSY;\n", "    (void)stack, (void)histar_taken(k);\n"),
    ("    if (histar_taken(k) && histar_taken_to_close(k, stack, &is_left)) return HISTAR_BUSY;\n", "    (void)stack;\n    if (histar_taken(k)) return HISTAR_BUSY;\n"),
    ("(__atomic_load_n(&k->caller, __ATOMIC_RELAXED) != histar_thread() || stack <", "(stack <"),
    (" || stack < __atomic_load_n(&k->below, __ATOMIC_RELAXED)\n", "\n"),
    ("\n                     || histar_is_on_signal_stack())", ")"),
    (" || __atomic_load_n(&k->caller, __ATOMIC_RELAXED) != histar_thread()\n", "\n"),
    ("\n        || stack <= __atomic_load_n(&k->below, __ATOMIC_RELAXED))", ")"),
    ("    if (!histar_is_open(k) || !histar_takes_turn(k, turn, it->turn)) {\n        it->k = NULL;\n        return HISTAR_UNAVAILABLE;\n    }\n", "    (void)histar_takes_turn(k, turn, it->turn);\n"),
    ("    if (!histar_is_open(k) || !histar_takes_turn(k, turn, it->turn)) {\n", "    if (!histar_takes_turn(k, turn, it->turn)) {\n"),
    ("histar_is_open(k) || (is_left && !k->open_at)", "histar_is_open(k) || is_left"),
    ("histar_is_open(k) || (is_left && !k->open_at)", "histar_is_open(k)"),
    ("    histar_blocks_of(NULL); /* (a call that was left has not said so) */\n    for (", "    for ("),
    ("    if (histar_taken(k)) return HISTAR_BUSY;\n    if (histar_is_open(k)) return histar_released(k, HISTAR_BUSY);\n", "    (void)histar_taken(k);\n"),
    ("    else if (k->is_seat) histar_seat_end(k->room);\n    else histar_end(k->room);\n", "    else histar_end(k->room);\n"),
    ("    k->is_seat = k->takes_memory = k->is_text = 0;\n", "    k->takes_memory = k->is_text = 0;\n"),
    ("    k->is_seat = k->takes_memory = k->is_text = 0;\n", "    k->is_seat = k->is_text = 0;\n"),
    (" ^ (uintptr_t)*histar_process);", " ^ (uintptr_t)k->process);"),
    ("    if (histar_is_of_another_process(k)) return HISTAR_UNAVAILABLE;\n", ""),
    ("!histar_process_begins() || histar_is_of_another_process(k)", "!histar_process_begins()"),
    ("    if (keeps > HISTAR_LOG_ALL) return histar_over(k, HISTAR_BAD_BATCH);\n", ""),
    ("    histar_wipes_call(k);\n    return histar_released", "    return histar_released"),
    ("    histar_wipes(k->request.numbers, sizeof k->request.numbers);\n", ""),
    ("    histar_wipes_label(&request->verify);\n", ""),
    ("    histar_wipes(&k->answer, sizeof k->answer);\n    histar_wipes_call", "    histar_wipes_call"),
    ("    histar_drops_text(k);\n    return HISTAR_DONE;\n", "    return HISTAR_DONE;\n"),
    ("        histar_wipes(k->part, sizeof k->part);\n", ""),
    ("        histar_wipe_stack();\n    }\n", "    }\n"),
    ("call->call <= HISTAR_CALL_LOAD ? histar_serves(k) : (uint32_t)HISTAR_BAD_BATCH", "histar_serves(k)"),
    ("    k->request.thread = thread.id;\n    refusal = call->call", "    refusal = call->call"),
    (" || layout < HISTAR_LAYOUT", ""),
    ("layout / 1000 != HISTAR_LAYOUT / 1000 || ", ""),
    ("layout / 1000 != HISTAR_LAYOUT / 1000 || layout < HISTAR_LAYOUT", "layout != HISTAR_LAYOUT"),
    ("    if (histar_taken(k)) return HISTAR_BUSY;\n    if (histar_is_open(k)) return histar_released(k, HISTAR_BUSY);\n", "    (void)histar_taken(k);\n"),
    ("    if (histar_is_open(k)) return histar_released(k, HISTAR_BUSY);\n", ""),
    ("    if (pages > UINT32_MAX) pages = UINT32_MAX; /* no kernel has so many, either */\n", ""),
    ("    if (!refusal && len > PTRDIFF_MAX) refusal = HISTAR_TEXT_FAULT; /* no text is so long */\n", ""),
    ("return level > HISTAR_STAR ? 255 : (uint8_t)level;", "return (uint8_t)level;"),
    ("change >= INT32_MIN && change <= INT32_MAX ? (uint32_t)change : UINT64_MAX", "(uint32_t)change"),
    ("    if (len > 64) return histar_over(k, HISTAR_BAD_BATCH);\n", "    len = len > 64 ? 64 : len;\n"),
    ("    if (size < 64) return histar_over(k, HISTAR_BAD_BATCH);\n", ""),
    ("    if (!refusal && size < len) refusal = HISTAR_BOUNDS;\n", "    if (!refusal && size < len) len = size;\n"),
    ("    if (label.count < 25) label.count++;", "    if (label.count < 24) label.count++;"),
    ("    histar_wipes(k->request.bytes, sizeof k->request.bytes);\n", ""),
    ("    histar_wipes(k->answer.bytes, sizeof k->answer.bytes);\n", ""),
    ("        histar_wipes(k->room, sizeof k->room);\n", ""),
    ("    if (histar_taken(from)) return histar_released(seat, HISTAR_BUSY);\n", "    (void)histar_taken(from);\n"),
    ("    if (histar_is_open(from) && from->is_seat) {\n", "    if (from->is_seat) {\n"),
    ("    if (histar_is_open(from) && from->is_seat) {\n", "    if (histar_is_open(from)) {\n"),
    ("    if (!k->is_seat) return histar_call(k->room, &k->request, &k->answer);\n", ""),
    ("        if (histar_is_read(k)) return histar_released(k, HISTAR_BUSY);\n", ""),
    ("    if (histar_is_read(k)) return histar_released(k, HISTAR_BUSY);\n    k->request.call = call;\n", "    k->request.call = call;\n"),
    ("    if (histar_taken(seat)) return histar_released(reader, HISTAR_BUSY);\n", "    (void)histar_taken(seat);\n"),
    ("    if (histar_is_open(seat) && seat->is_seat && ", "    if (seat->is_seat && "),
    ("    if (histar_is_open(seat) && seat->is_seat && ", "    if (histar_is_open(seat) && "),
    ("    if (note.at != older->shared.at || note.since != older->shared.since) return histar_released(older, HISTAR_OTHER_LIST);\n", ""),
    ("    if (note.at != seat->shared.at || note.since != seat->shared.since) return histar_released(seat, HISTAR_OTHER_LIST);\n", ""),
    ("note.at != seat->shared.at || ", ""),
    (" || note.since != seat->shared.since", ""),
    ("    k->request.numbers[0] = most;\n", "    k->request.numbers[0] = UINT64_MAX;\n"),
    (", uint64_t offset,", ", uint32_t offset,"),
    ("void *bytes, uint64_t len)", "void *bytes, uint32_t len)"),
)


def wrong(text):
    """Each wrong header of a header's text, with the line in which it differs."""
    for pattern, turned in TURNS:
        for found in re.finditer(pattern, text):
            if turned(found) is not None:
                yield text.count("\n", 0, found.start()) + 1, text[: found.start()] + turned(found) + text[found.end() :]


def unguarded(text):
    """Each header without a guard, with the line in which the guard stood; a guard that is not there is told by no header."""
    for guard, without in GUARDS:
        yield text.count("\n", 0, text.index(guard)) + 1 if guard in text else guard, text.replace(guard, without) if guard in text else None
