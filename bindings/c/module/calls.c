/* The calls of rigyomad.h. Each makes an instance of the module, copies into its memory what the caller lends, and copies out what it
 * returns. So no call keeps state, and nothing inside touches the memory of the caller. */
#if IS_PART(0)
#include "rigyomad.h"
#if HAS_SCRIPT
#include "rigyomad_script.h"
#endif

const char rigyomad_c_version_text[] = VERSION_TEXT;

/* What a call returns after a trap inside the module. No value of enum rigyomad_status is the same. */
#define TRAPPED 7

/* A message has a name of the text and a few words, and a module seldom more bytes than its text. */
#define MORE_ROOM 4096

/* An address in the memory of the module; 0 if there is none. */
typedef u64 place;

/* Returns what `work` returns of an instance and the words of a call. */
static u32 called(u32 (*work)(W *, const void *), const void *words) {
    W it;
    u32 status;
    if (!memory_opened(&it.memory, MODULE_PAGES)) {
        return RIGYOMAD_MEMORY;
    }
    started(&it);
    if (setjmp(it.memory.out)) {
        free(it.memory.data);
        return TRAPPED;
    }
    status = work(&it, words);
    free(it.memory.data);
    return status;
}

/* Takes room in the memory of the module. The calls do not give it back, because the instance ends with the call. */
static place room_of(W *it, u64 size) { return module_take(it, size ? size : 1); }

static place lent(W *it, const u8 *bytes, size_t size) {
    place at = room_of(it, size);
    if (at) {
        memcpy(it->memory.data + at, bytes, size);
    }
    return at;
}

static void copied(W *it, void *to, place at, size_t size) { memcpy(to, it->memory.data + at, size); }

static size_t size_at(W *it, place at) {
    u64 found;
    copied(it, &found, at, 8);
    return (size_t)found;
}

static u32 word_at(W *it, place at) {
    u32 found;
    copied(it, &found, at, 4);
    return found;
}

static size_t least(size_t one, size_t other) { return one < other ? one : other; }

uint32_t rigyomad_c_version(void) { return RIGYOMAD_VERSION; }

struct encode_words {
    const u8 *text;
    size_t text_size;
    u8 *out;
    size_t out_size;
    size_t *size;
};

static u32 encoded(W *it, const void *given) {
    const struct encode_words *words = (const struct encode_words *)given;
    size_t room = least(words->out_size, words->text_size + MORE_ROOM), needed;
    place text = lent(it, words->text, words->text_size), size = room_of(it, 8), out = room_of(it, room);
    u32 status;
    if (!text || !size || !out) {
        return RIGYOMAD_MEMORY;
    }
    status = module_encode(it, text, words->text_size, out, room, size);
    needed = size_at(it, size);
    if (status == RIGYOMAD_SHORT && needed <= words->out_size) {
        module_give(it, out);
        out = room_of(it, needed);
        status = out ? module_encode(it, text, words->text_size, out, needed, size) : (u32)RIGYOMAD_MEMORY;
    }
    if (status == RIGYOMAD_DONE) {
        copied(it, words->out, out, needed);
    }
    *words->size = status == RIGYOMAD_MEMORY ? 0 : needed;
    return status;
}

uint32_t rigyomad_c_encode(const uint8_t *text, size_t text_size, uint8_t *out, size_t out_size, size_t *size) {
    struct encode_words words;
    words.text = text;
    words.text_size = text_size;
    words.out = out;
    words.out_size = out_size;
    words.size = size;
    *size = 0;
    return called(encoded, &words);
}

struct fault_words {
    const u8 *text;
    size_t text_size;
    u8 *message;
    size_t message_size;
    struct rigyomad_diagnosis *diagnosis;
    u8 *out;
    size_t out_size;
    size_t *size;
};

/* Copies a diagnosis and as much of its message as there is room for. */
static void diagnosed(W *it, const struct fault_words *words, place diagnosis, place message, size_t room) {
    words->diagnosis->number = word_at(it, diagnosis);
    words->diagnosis->offset = size_at(it, diagnosis + 8);
    words->diagnosis->line = size_at(it, diagnosis + 16);
    words->diagnosis->column = size_at(it, diagnosis + 24);
    words->diagnosis->size = size_at(it, diagnosis + 32);
    words->diagnosis->end_offset = size_at(it, diagnosis + 40);
    copied(it, words->message, message, least(words->diagnosis->size, room));
}

/* A diagnosis of refused memory. */
static void refused(struct rigyomad_diagnosis *diagnosis) {
    memset(diagnosis, 0, sizeof *diagnosis);
    diagnosis->number = RIGYOMAD_E12_MEMORY;
}

static u32 faulted(W *it, const void *given) {
    const struct fault_words *words = (const struct fault_words *)given;
    size_t room = least(words->message_size, words->text_size + MORE_ROOM);
    place text = lent(it, words->text, words->text_size), message = room_of(it, room), diagnosis = room_of(it, 48);
    u32 status;
    if (!text || !message || !diagnosis) {
        return RIGYOMAD_MEMORY;
    }
    status = module_fault(it, text, words->text_size, message, room, diagnosis);
    if (size_at(it, diagnosis + 32) > room && room < words->message_size) {
        room = least(words->message_size, size_at(it, diagnosis + 32));
        message = room_of(it, room);
        if (!message) {
            return RIGYOMAD_MEMORY;
        }
        status = module_fault(it, text, words->text_size, message, room, diagnosis);
    }
    diagnosed(it, words, diagnosis, message, room);
    return status;
}

uint32_t rigyomad_c_fault(const uint8_t *text, size_t text_size, uint8_t *message, size_t message_size,
                          struct rigyomad_diagnosis *diagnosis) {
    struct fault_words words;
    memset(&words, 0, sizeof words);
    words.text = text;
    words.text_size = text_size;
    words.message = message;
    words.message_size = message_size;
    words.diagnosis = diagnosis;
    refused(diagnosis);
    return called(faulted, &words);
}

struct resolve_words {
    const u8 *text;
    size_t text_size;
    u32 space;
    const u8 *name;
    size_t name_size;
    u32 *number;
};

static u32 resolved(W *it, const void *given) {
    const struct resolve_words *words = (const struct resolve_words *)given;
    place text = lent(it, words->text, words->text_size), name = lent(it, words->name, words->name_size), number = room_of(it, 4);
    u32 status;
    if (!text || !name || !number) {
        return RIGYOMAD_MEMORY;
    }
    status = module_resolve(it, text, words->text_size, words->space, name, words->name_size, number);
    if (status == RIGYOMAD_DONE) {
        *words->number = word_at(it, number);
    }
    return status;
}

uint32_t rigyomad_c_resolve(const uint8_t *text, size_t text_size, uint32_t space, const uint8_t *name, size_t name_size,
                            uint32_t *number) {
    struct resolve_words words;
    words.text = text;
    words.text_size = text_size;
    words.space = space;
    words.name = name;
    words.name_size = name_size;
    words.number = number;
    return called(resolved, &words);
}

struct names_words {
    const u8 *text;
    size_t text_size;
    struct rigyomad_name *names;
    size_t names_count;
    u8 *bytes;
    size_t bytes_size;
    struct rigyomad_names_room *room;
};

static u32 named(W *it, const void *given) {
    const struct names_words *words = (const struct names_words *)given;
    /* No text has more names, nor more bytes of names. */
    size_t count = least(words->names_count, words->text_size / 8 + 1), most = least(words->bytes_size, words->text_size), i;
    place text = lent(it, words->text, words->text_size), names = room_of(it, 32 * (u64)count), bytes = room_of(it, most), room = room_of(it, 16);
    u32 status;
    if (!text || !names || !bytes || !room) {
        return RIGYOMAD_MEMORY;
    }
    status = module_names(it, text, words->text_size, names, count, bytes, most, room);
    words->room->names = size_at(it, room);
    words->room->bytes = size_at(it, room + 8);
    for (i = 0; status == RIGYOMAD_DONE && i < words->room->names; i++) {
        place at = names + 32 * (u64)i;
        words->names[i].space = word_at(it, at);
        words->names[i].number = word_at(it, at + 4);
        words->names[i].offset = size_at(it, at + 8);
        words->names[i].start = size_at(it, at + 16);
        words->names[i].size = size_at(it, at + 24);
    }
    if (status == RIGYOMAD_DONE) {
        copied(it, words->bytes, bytes, words->room->bytes);
    }
    return status;
}

uint32_t rigyomad_c_names(const uint8_t *text, size_t text_size, struct rigyomad_name *names, size_t names_count, uint8_t *bytes,
                          size_t bytes_size, struct rigyomad_names_room *room) {
    struct names_words words;
    words.text = text;
    words.text_size = text_size;
    words.names = names;
    words.names_count = names_count;
    words.bytes = bytes;
    words.bytes_size = bytes_size;
    words.room = room;
    room->names = room->bytes = 0;
    return called(named, &words);
}

#if HAS_SCRIPT
struct note_words {
    struct fault_words fault;
    u32 number;
};

static u32 noted(W *it, const void *given) {
    const struct note_words *note = (const struct note_words *)given;
    const struct fault_words *words = &note->fault;
    size_t room = least(words->message_size, words->text_size + MORE_ROOM);
    place text = lent(it, words->text, words->text_size), message = room_of(it, room), diagnosis = room_of(it, 48);
    u32 status;
    if (!text || !message || !diagnosis) {
        return RIGYOMAD_MEMORY;
    }
    status = module_note(it, text, words->text_size, note->number, message, room, diagnosis);
    diagnosed(it, words, diagnosis, message, room);
    return status;
}

uint32_t rigyomad_c_note(const uint8_t *text, size_t text_size, uint32_t number, uint8_t *message, size_t message_size,
                         struct rigyomad_diagnosis *diagnosis) {
    struct note_words words;
    memset(&words, 0, sizeof words);
    words.fault.text = text;
    words.fault.text_size = text_size;
    words.fault.message = message;
    words.fault.message_size = message_size;
    words.fault.diagnosis = diagnosis;
    words.number = number;
    memset(diagnosis, 0, sizeof *diagnosis);
    return called(noted, &words);
}

struct width_words {
    u32 character;
    u32 *width;
};

static u32 measured(W *it, const void *given) {
    const struct width_words *words = (const struct width_words *)given;
    *words->width = module_width(it, words->character);
    return RIGYOMAD_DONE;
}

uint32_t rigyomad_c_width(uint32_t character) {
    u32 width = 1;
    struct width_words words;
    words.character = character;
    words.width = &width;
    called(measured, &words);
    return width;
}

static u32 scripted(W *it, const void *given) {
    const struct fault_words *words = (const struct fault_words *)given;
    size_t room = least(words->message_size, words->text_size + MORE_ROOM);
    place text = lent(it, words->text, words->text_size), message = room_of(it, room), diagnosis = room_of(it, 48);
    place size = room_of(it, 8), out = room_of(it, words->out_size);
    u32 status;
    if (!text || !message || !diagnosis || !size || !out) {
        return RIGYOMAD_MEMORY;
    }
    status = module_script(it, text, words->text_size, out, words->out_size, size, message, room, diagnosis);
    diagnosed(it, words, diagnosis, message, room);
    *words->size = size_at(it, size);
    if (status == RIGYOMAD_DONE) {
        copied(it, words->out, out, *words->size);
    }
    return status;
}

uint32_t rigyomad_c_script(const uint8_t *text, size_t text_size, uint8_t *out, size_t out_size, size_t *size, uint8_t *message,
                           size_t message_size, struct rigyomad_diagnosis *diagnosis) {
    struct fault_words words;
    words.text = text;
    words.text_size = text_size;
    words.message = message;
    words.message_size = message_size;
    words.diagnosis = diagnosis;
    words.out = out;
    words.out_size = out_size;
    words.size = size;
    *size = 0;
    refused(diagnosis);
    return called(scripted, &words);
}
#endif
#endif
