#include "drive.h"

#include "base/text.h"
#include "second/bursts.h"
#include "second/counts.h"
#include "second/electrons.h"
#include "second/major.h"
#include "second/reader.h"
#include "second/record.h"
#include "second/snapshot.h"
#include "second/state.h"

/* ---- both headers ----------------------------------------------------- */

#define SAME(name) (LPMAG_##name == SECOND_##name)
_Static_assert(SAME(VERSION) && SAME(RECORD) && SAME(PACKET) && SAME(PACKET_AT) && SAME(MAG) &&
                   SAME(MAG_AT) && SAME(SAMPLES) && SAME(SCIENCE) && SAME(SCIENCE_AT) && SAME(CELLS) &&
                   SAME(FRAME) && SAME(SNAPSHOT) && SAME(BURST) && SAME(WORDS) &&
                   LPMAG_SECOND_AT == SECOND_BURST_AT,
               "both headers name the same sizes and places");
_Static_assert(SAME(OK) && SAME(NO_SUCH_PLACE) && SAME(ABSENT) && SAME(SCALE_UNKNOWN) && SAME(TOO_LARGE) &&
                   SAME(NO_SUCH_BIN) && SAME(OPENS) && SAME(JOINS) && SAME(NEITHER) && SAME(OTHER) &&
                   SAME(UNDEFINED) && SAME(HALF_BURST) && SAME(FULL_BURST),
               "both headers have the same numbers of answers");

/* Where each field stands is compared byte by byte (subjects/structs.c). */
#define SAME_SIZE(name) (sizeof(struct lpmag_##name) == sizeof(struct second_##name))
_Static_assert(SAME_SIZE(major) && SAME_SIZE(accumulation) && SAME_SIZE(snapshot) && SAME_SIZE(state) &&
                   SAME_SIZE(fields) && SAME_SIZE(closed_snapshot) && SAME_SIZE(closed) &&
                   SAME_SIZE(report) && SAME_SIZE(fed),
               "both headers have structs of the same sizes");

/* Each function of either header has the parameters of the other's, but for the names of structs. */
#define TYPE_OF_FIELDS(whose) (*)(struct whose##_fields *, const uint8_t *, size_t)
#define TYPE_OF_STEP(whose) \
    (*)(struct whose##_state *, struct whose##_report *, SECOND_BUFFERS, const uint8_t *, size_t)
#define TYPE_OF_FEED(whose) \
    (*)(struct whose##_state *, struct whose##_fed *, SECOND_BUFFERS, const uint8_t *, size_t)
#define TYPE_OF_FINISH(whose) (*)(struct whose##_state *, struct whose##_closed *, SECOND_BUFFERS)
#define TYPE_OF_MAJOR_WORD(whose) (*)(const struct whose##_major *, size_t, uint16_t *)
#define TYPE_OF_MAJOR_SAMPLE(whose) \
    (*)(const struct whose##_major *, const int16_t *, size_t, size_t, size_t, int16_t *)
#define TYPE_OF_MAJOR_FIELD(whose) \
    (*)(const struct whose##_major *, const int16_t *, size_t, size_t, size_t, float *)

#define SAME_PROTOTYPE(NAME, name)                                                      \
    _Static_assert(_Generic(lpmag_##name, __typeof__(&second_##name) : 1, default : 0), \
                   "lpmag_" #name " and second_" #name " have the same parameters");
#define SAME_BUT_STRUCTS(NAME, name)                                                             \
    _Static_assert(_Generic(lpmag_##name, uint8_t TYPE_OF_##NAME(lpmag) : 1, default : 0) &&     \
                       _Generic(second_##name, uint8_t TYPE_OF_##NAME(second) : 1, default : 0), \
                   "lpmag_" #name " and second_" #name " have the same parameters");
FUNCTIONS_COMPARED(SAME_PROTOTYPE, SAME_BUT_STRUCTS)

/* ---- names ------------------------------------------------------------ */

const char *function_name(enum function function)
{
#define NAMED_FUNCTION(NAME, name) #name,
    static const char *const names[FUNCTIONS] = {FUNCTIONS_COMPARED(NAMED_FUNCTION, NAMED_FUNCTION)};
    return names[function];
}

const char *clause_name(enum clause clause)
{
#define NAMED_CLAUSE(CLAUSE, name) name,
    static const char *const names[CLAUSES] = {CLAUSES_OF_A_STATE(NAMED_CLAUSE)};
    return names[clause];
}

const char *room_name(enum lent_room room)
{
#define NAMED_ROOM(ROOM, size, name, is) name,
    static const char *const names[ROOMS] = {ROOMS_LENT(NAMED_ROOM)};
    return names[room];
}

/* ---- where the comparison is ------------------------------------------ */

void begin(struct drive *drive, const char *phase)
{
    drive->phase = phase;
    print_text("comparing ");
    print_text(phase);
    print_text("\n");
    print_flush();
}
