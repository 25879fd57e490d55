#include "library/library.h"

#include <pthread.h>
#include <signal.h>
#include <stdlib.h>

#include "mahyrei.h"
#include "report/messages.h"

enum { CALL_STACK = 4 << 20 };

/* One call, and its answer. */
struct call {
    const struct lent *lent;
    bool writing;
    uint64_t answer;
};

static void *make_call(void *given) {
    struct call *const call = given;
    const struct lent *const lent = call->lent;
    const struct bytes *const header = &lent->header, *const marker = &lent->marker,
                              *const frames = &lent->frames, *const slots = &lent->slots;
    call->answer = call->writing
                       ? mahyrei_run_write(header->at, header->len, marker->at, marker->len,
                                           frames->at, frames->len, slots->at, slots->len)
                       : mahyrei_run_read(header->at, header->len, marker->at, marker->len,
                                          slots->at, slots->len, frames->at, frames->len);
    return NULL;
}

/* A search in a capture, or a cut from it, from a slot on. */
struct capture_call {
    const struct lent *lent;
    bool cutting;
    uint64_t slot, answer;
};

static void *make_capture_call(void *given) {
    struct capture_call *const call = given;
    const struct lent *const lent = call->lent;
    const struct bytes *const header = &lent->header, *const marker = &lent->marker,
                              *const capture = &lent->capture, *const slots = &lent->slots;
    call->answer = call->cutting
                       ? mahyrei_run_cut(header->at, header->len, capture->at, capture->len,
                                         call->slot, slots->at, slots->len)
                       : mahyrei_run_find_from(header->at, header->len, marker->at, marker->len,
                                               capture->at, capture->len, call->slot);
    return NULL;
}

/* Many searches on one stack: a capture can have a start in each byte, and a thread for each of
 * them would take a hundred times as long as its search. */
struct starts_call {
    const struct lent *lent;
    uint64_t from;
    struct starts *starts;
};

static void *make_starts_call(void *given) {
    struct starts_call *const call = given;
    struct starts *const starts = call->starts;
    struct capture_call one = {call->lent, false, call->from, 0};
    for (starts->count = 0; starts->count < STARTS_MOST; starts->count++) {
        make_capture_call(&one);
        if (mahyrei_answer_number(one.answer) != MAHYREI_ACCEPTED) {
            break;
        }
        starts->slots[starts->count] = mahyrei_answer_place(one.answer);
        one.slot = mahyrei_answer_place(one.answer) + 1;
    }
    return NULL;
}

/* A word to be read. */
struct word_call {
    uint64_t rate;
    const uint8_t *word;
    uint8_t *block;
    uint64_t answer;
};

static void *make_word_call(void *given) {
    struct word_call *const call = given;
    call->answer = mahyrei_word_read(call->rate, call->word, MAHYREI_WORD_BYTES, call->block,
                                     mahyrei_word_block_bytes(call->rate));
    return NULL;
}

/* One call of a pass, and its answer. */
struct pass_call {
    const struct pass *pass;
    bool writing;
    uint64_t answer;
};

static void *make_pass_call(void *given) {
    struct pass_call *const call = given;
    const struct bytes *const blocks = &call->pass->blocks, *const words = &call->pass->words;
    call->answer =
        call->writing
            ? mahyrei_pass_write(call->pass->rate, blocks->at, blocks->len, words->at, words->len)
            : mahyrei_pass_read(call->pass->rate, words->at, words->len, blocks->at, blocks->len);
    return NULL;
}

/* One call of the uplink, and its answer. */
struct uplink_call {
    const struct uplink *uplink;
    bool writing;
    uint64_t answer;
};

static void *make_uplink_call(void *given) {
    struct uplink_call *const call = given;
    const struct bytes *const frames = &call->uplink->frames, *const slots = &call->uplink->slots;
    call->answer = call->writing
                       ? mahyrei_uplink_write(frames->at, frames->len, slots->at, slots->len)
                       : mahyrei_uplink_read(slots->at, slots->len, frames->at, frames->len);
    return NULL;
}

/* One call on a rack, and its answer. */
struct rack_call {
    const struct rack *rack;
    uint64_t (*put)(const struct rack *rack);
    uint64_t answer;
};

static void *make_rack_call(void *given) {
    struct rack_call *const call = given;
    call->answer = call->put(call->rack);
    return NULL;
}

static uint64_t put_load(const struct rack *rack) {
    return mahyrei_rack_load(rack->area.at, rack->area.len, rack->caller, rack->owner, rack->place,
                             rack->header.at, rack->header.len);
}

static uint64_t put_read(const struct rack *rack) {
    return mahyrei_rack_read(rack->area.at, rack->area.len, rack->caller, rack->owner, rack->place,
                             rack->header.at, rack->header.len);
}

static uint64_t put_drop(const struct rack *rack) {
    return mahyrei_rack_drop(rack->area.at, rack->area.len, rack->caller, rack->owner, rack->place);
}

static uint64_t put_lend(const struct rack *rack) {
    return mahyrei_rack_lend(rack->area.at, rack->area.len, rack->caller, rack->owner, rack->place,
                             rack->to);
}

/* A bit whose spread is asked for. */
struct spread_call {
    uint64_t rate, bit;
    uint8_t *places;
    uint64_t answer;
};

static void *make_spread_call(void *given) {
    struct spread_call *const call = given;
    call->answer = mahyrei_bit_spread(call->rate, call->bit, call->places, MAHYREI_WORD_BYTES);
    return NULL;
}

/* A header from one form to the other. */
struct form_call {
    const struct forms *forms;
    bool widening;
    uint64_t answer;
};

static void *make_form_call(void *given) {
    struct form_call *const call = given;
    const struct bytes *const eight = &call->forms->eight, *const ten = &call->forms->ten;
    call->answer = call->widening ? mahyrei_header_widen(eight->at, eight->len, ten->at, ten->len)
                                  : mahyrei_header_narrow(ten->at, ten->len, eight->at, eight->len);
    return NULL;
}

/* Fades to be counted. */
struct fades_call {
    const struct reckoned *reckoned;
    uint64_t answer;
};

static void *make_fades_call(void *given) {
    struct fades_call *const call = given;
    const struct reckoned *const r = call->reckoned;
    call->answer = mahyrei_fades_count(r->header.at, r->header.len, r->fades, r->fades_len,
                                       r->counts, r->counts_len);
    return NULL;
}

/* Whether this thread has such a stack already. */
static _Thread_local bool has_stack;

/* Work that makes many calls, and whether it is done. */
struct together {
    bool (*work)(void *with);
    void *with;
    bool good;
};

static void *do_together(void *given) {
    struct together *const together = given;
    has_stack = true;
    together->good = together->work(together->with);
    return NULL;
}

/* Starts a thread that no signal comes to, so that handlers run where the program waits. A byte of
 * a mapping that is gone is missed where it is looked at, which may be there. */
static int start(pthread_t *thread, void *(*make)(void *), void *call) {
    sigset_t all, before;
    pthread_attr_t attributes;
    int error = pthread_attr_init(&attributes);
    if (error != 0) {
        return error;
    }
    sigfillset(&all);
    sigdelset(&all, SIGBUS);
    pthread_sigmask(SIG_BLOCK, &all, &before);
    error = pthread_attr_setstacksize(&attributes, CALL_STACK);
    error = error != 0 ? error : pthread_create(thread, &attributes, make, call);
    pthread_sigmask(SIG_SETMASK, &before, NULL);
    pthread_attr_destroy(&attributes);
    return error;
}

static bool on_its_stack(void *(*make)(void *), void *call) {
    pthread_t thread;
    if (has_stack) {
        make(call);
        return true;
    }
    int error = start(&thread, make, call);
    error = error != 0 ? error : pthread_join(thread, NULL);
    if (error != 0) {
        complain("a stack of 4 MiB for the library", error);
        return false;
    }
    return true;
}

bool library_together(bool (*work)(void *with), void *with) {
    struct together together = {work, with, false};
    return on_its_stack(do_together, &together) && together.good;
}

static bool ask(struct call *call, uint64_t *answer) {
    if (!on_its_stack(make_call, call)) {
        return false;
    }
    *answer = call->answer;
    return true;
}

bool library_write(const struct lent *lent, uint64_t *answer) {
    struct call call = {lent, true, 0};
    return ask(&call, answer);
}

bool library_read(const struct lent *lent, uint64_t *answer) {
    struct call call = {lent, false, 0};
    return ask(&call, answer);
}

static bool ask_capture(struct capture_call *call, uint64_t *answer) {
    if (!on_its_stack(make_capture_call, call)) {
        return false;
    }
    *answer = call->answer;
    return true;
}

bool library_find(const struct lent *lent, uint64_t from, uint64_t *answer) {
    struct capture_call call = {lent, false, from, 0};
    return ask_capture(&call, answer);
}

bool library_find_many(const struct lent *lent, uint64_t from, struct starts *starts) {
    struct starts_call call = {.lent = lent, .from = from};
    call.starts = starts;
    return on_its_stack(make_starts_call, &call);
}

bool library_cut(const struct lent *lent, uint64_t slot, uint64_t *answer) {
    struct capture_call call = {lent, true, slot, 0};
    return ask_capture(&call, answer);
}

bool library_word_read(uint64_t rate, const uint8_t *word, uint8_t *block, uint64_t *answer) {
    struct word_call call = {.rate = rate, .word = word};
    call.block = block;
    if (!on_its_stack(make_word_call, &call)) {
        return false;
    }
    *answer = call.answer;
    return true;
}

static bool ask_pass(struct pass_call *call, uint64_t *answer) {
    if (!on_its_stack(make_pass_call, call)) {
        return false;
    }
    *answer = call->answer;
    return true;
}

bool library_pass_write(const struct pass *pass, uint64_t *answer) {
    struct pass_call call = {pass, true, 0};
    return ask_pass(&call, answer);
}

bool library_pass_read(const struct pass *pass, uint64_t *answer) {
    struct pass_call call = {pass, false, 0};
    return ask_pass(&call, answer);
}

static bool ask_uplink(struct uplink_call *call, uint64_t *answer) {
    if (!on_its_stack(make_uplink_call, call)) {
        return false;
    }
    *answer = call->answer;
    return true;
}

bool library_uplink_write(const struct uplink *uplink, uint64_t *answer) {
    struct uplink_call call = {uplink, true, 0};
    return ask_uplink(&call, answer);
}

bool library_uplink_read(const struct uplink *uplink, uint64_t *answer) {
    struct uplink_call call = {uplink, false, 0};
    return ask_uplink(&call, answer);
}

static bool ask_rack(const struct rack *rack, uint64_t (*put)(const struct rack *),
                     uint64_t *answer) {
    struct rack_call call = {rack, put, 0};
    if (!on_its_stack(make_rack_call, &call)) {
        return false;
    }
    *answer = call.answer;
    return true;
}

bool library_rack_load(const struct rack *rack, uint64_t *answer) {
    return ask_rack(rack, put_load, answer);
}

bool library_rack_read(const struct rack *rack, uint64_t *answer) {
    return ask_rack(rack, put_read, answer);
}

bool library_rack_drop(const struct rack *rack, uint64_t *answer) {
    return ask_rack(rack, put_drop, answer);
}

bool library_rack_lend(const struct rack *rack, uint64_t *answer) {
    return ask_rack(rack, put_lend, answer);
}

bool library_spread(uint64_t rate, uint64_t bit, uint8_t *places, uint64_t *answer) {
    struct spread_call call = {.rate = rate, .bit = bit};
    call.places = places;
    if (!on_its_stack(make_spread_call, &call)) {
        return false;
    }
    *answer = call.answer;
    return true;
}

/* With nothing else lent, a good header comes as far as 8: its marker has at least one symbol, and
 * none is there. */
bool library_header(const struct bytes *header, uint64_t *answer) {
    const struct lent lent = {.header = *header};
    if (!library_write(&lent, answer)) {
        return false;
    }
    *answer = mahyrei_answer_number(*answer) == MAHYREI_BAD_LENGTH ? MAHYREI_ACCEPTED : *answer;
    return true;
}

static bool ask_form(struct form_call *call, uint64_t *answer) {
    if (!on_its_stack(make_form_call, call)) {
        return false;
    }
    *answer = call->answer;
    return true;
}

bool library_widen(const struct forms *forms, uint64_t *answer) {
    struct form_call call = {forms, true, 0};
    return ask_form(&call, answer);
}

bool library_narrow(const struct forms *forms, uint64_t *answer) {
    struct form_call call = {forms, false, 0};
    return ask_form(&call, answer);
}

bool library_fades(const struct reckoned *reckoned, uint64_t *answer) {
    struct fades_call call = {reckoned, 0};
    if (!on_its_stack(make_fades_call, &call)) {
        return false;
    }
    *answer = call.answer;
    return true;
}

void free_lent(struct lent *lent) {
    free(lent->header.at);
    free(lent->marker.at);
    free(lent->frames.at);
    free(lent->slots.at);
    free(lent->capture.at);
    *lent = (struct lent){0};
}
