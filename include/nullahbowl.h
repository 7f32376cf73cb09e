/* Nullahbowl from C: sort keys of names, lists of names checked, and the part of a list that begins as asked.
 *
 * What is lent. A list of numbers crosses as a pointer and then how many numbers there are, not how many bytes. It is lent
 * for the call: nothing is kept when a function returns, nothing is allocated, and nothing is written but `room` and
 * `parts`. Of pointers it has to be true that
 *   - none is null and each is aligned for its type, also where the length behind it is 0;
 *   - behind each there are as many numbers as its length says;
 *   - `room` and `parts` overlap nothing else that is lent (what is only read may).
 * Nothing else is asked of the caller. Whatever the numbers are, they are checked, and what is wrong is answered.
 *
 * A table. A letter is a byte, 0 to 255: these functions know nothing of UTF-8. `letters` are 768 numbers, three weights
 * for each letter: those of letter x are letters[3 * x], letters[3 * x + 1] and letters[3 * x + 2], on level one, two and
 * three. A weight of 0 does not count on
 * its level. `pairs` are five numbers for each pair of letters that are one together: the two letters, and the three
 * weights that they have together. `how_many` says how many pairs there are, up to 200, no two of the same letters. The
 * numbers are no table, in this order, where
 *   1. the letters are not 768 numbers, or the pairs not 5 * how_many (place 0);
 *   2. there are more than 200 pairs (place 0);
 *   3. a letter of a pair is above 255 (place: the first such pair);
 *   4. a pair has the two letters of an earlier one (place: the first such pair, the later of the two).
 *
 * Names. `text` has all names, one behind the other, and `starts` where each begins, with the end of the text behind. So
 * the name of number i is text[starts[i]] and so on, up to, but without, text[starts[i + 1]]; there is one start more
 * than there are names, and without names there is the end alone. The first start need not be 0: text in front of it is
 * nobody's name. The last is the end of the text, which so has less than 2^32 letters. A name has up to 1,000 letters,
 * and may have none. `places` are numbers of names in order: of all names or of some, and one may be there twice. Names
 * are in order where their keys are; names of equal keys may stand either way round.
 *
 * Places count from 0. */
#ifndef NULLAHBOWL_H
#define NULLAHBOWL_H

#include <stddef.h>
#include <stdint.h>

#ifdef __cplusplus
extern "C" {
#endif

/* Limits. */
enum {
    NULLAHBOWL_LETTERS_LEN = 768, /* numbers of a table's letters */
    NULLAHBOWL_PAIR_LEN = 5,      /* numbers of a pair */
    NULLAHBOWL_MAX_PAIRS = 200,   /* pairs of a table */
    NULLAHBOWL_MAX_NAME = 1000,   /* letters of a name and of a question */
    NULLAHBOWL_MAX_KEY = 3002     /* numbers of a key: room that is always enough */
};

/* What nullahbowl_key answers. */
enum nullahbowl_key_what {
    NULLAHBOWL_KEYED = 0,  /* number: how many numbers the key has; they stand in front of the room */
    NULLAHBOWL_SHORT = 1,  /* number: how many the key has, more than the room */
    NULLAHBOWL_REFUSED = 2 /* number: one of the next two */
};

enum nullahbowl_key_refusal {
    NULLAHBOWL_REFUSED_TABLE = 1, /* the numbers are no table */
    NULLAHBOWL_REFUSED_NAME = 2   /* the name has more than 1,000 letters */
};

typedef struct {
    uint32_t what;   /* enum nullahbowl_key_what */
    uint64_t number;
} nullahbowl_key_answer;

/* The sort key of a name: the first weights of what it is read as, a 0, the second ones, a 0, and the third ones, all
 * without those that are 0. A name is read from the left: where the next two letters are one together they are taken so,
 * else one letter is. Names stand as their keys do. Compare these number by number; where they are the same up to the end
 * of one, that one comes first.
 *
 * A table that is none is told before a name that is too long, and that before room that is too short. In all three cases
 * the room is as it was. Where the key is written, what is behind it in the room is as it was. With room of length 0 one
 * learns how long the key is.
 *
 * The table is checked each time, by going over its pairs; then the name is gone over a few times. */
nullahbowl_key_answer nullahbowl_key(
    const uint16_t *letters, size_t letters_len,
    const uint16_t *pairs, size_t pairs_len, uint64_t how_many,
    const uint8_t *name, size_t name_len,
    uint16_t *room, size_t room_len);

/* A part of `places`: the `length` numbers from places[place] on. */
typedef struct {
    size_t place;
    size_t length;
} nullahbowl_part;

/* The part of `places` whose names begin as asked: their first weights, without those that are 0, begin with those of what
 * is asked. Where what is asked has none all names begin so. Where no name begins so the length is 0, and the place is
 * where such names would stand. Where table or lists are not as they should be, or more than 1,000 letters are asked with,
 * both are 0, as they are of a part of none at the front of the list; nullahbowl_check says what is wrong with table or
 * lists.
 *
 * Table and lists are checked each time: all of them are gone over, and each name of the list is compared with the one in
 * front of it. Finding itself looks at a few names only. */
nullahbowl_part nullahbowl_find(
    const uint16_t *letters, size_t letters_len,
    const uint16_t *pairs, size_t pairs_len, uint64_t how_many,
    const uint8_t *text, size_t text_len,
    const uint32_t *starts, size_t starts_len,
    const uint32_t *places, size_t places_len,
    const uint8_t *ask, size_t ask_len);

/* What is wrong, the first as they stand here; of each kind the first place. */
enum nullahbowl_verdict_what {
    NULLAHBOWL_FINE = 0,           /* nothing; place: 0 */
    NULLAHBOWL_BAD_TABLE = 1,      /* the numbers are no table; place: the pair, or 0 */
    NULLAHBOWL_NO_START = 2,       /* there is no start, not even the end of the text; place: 0 */
    NULLAHBOWL_START_FALLS = 3,    /* a start is before the one in front of it; place: that start */
    NULLAHBOWL_ENDS_ELSEWHERE = 5, /* the last start is not the end of the text; place: that start */
    NULLAHBOWL_NAME_TOO_LONG = 4,  /* a name has more than 1,000 letters; place: its number */
    NULLAHBOWL_NO_SUCH_NAME = 6,   /* a number is no name's; place: where in `places` */
    NULLAHBOWL_OUT_OF_ORDER = 7,   /* a name is before the one in front of it; place: where in `places` */
    NULLAHBOWL_BAD_QUESTIONS = 8,  /* questions or their starts are not as names should be; place: as of 2 to 5 */
    NULLAHBOWL_OTHER_PARTS = 9     /* there are not as many parts as questions, or 2^32 questions or more;
                                      place: how many questions */
};

typedef struct {
    uint32_t what;  /* enum nullahbowl_verdict_what */
    uint64_t place;
} nullahbowl_verdict;

/* Whether table and lists are as they should be: 0 to 7 above. It takes about as long as nullahbowl_find. */
nullahbowl_verdict nullahbowl_check(
    const uint16_t *letters, size_t letters_len,
    const uint16_t *pairs, size_t pairs_len, uint64_t how_many,
    const uint8_t *text, size_t text_len,
    const uint32_t *starts, size_t starts_len,
    const uint32_t *places, size_t places_len);

/* Many questions at once. They are one behind the other in `asks`, with their starts, as names are, and there have to be
 * as many parts as questions. Then the answer is 0, and parts[i] is what nullahbowl_find answers for question i; else the
 * parts are as they were. Table and lists are checked once, however many questions there are. */
nullahbowl_verdict nullahbowl_find_each(
    const uint16_t *letters, size_t letters_len,
    const uint16_t *pairs, size_t pairs_len, uint64_t how_many,
    const uint8_t *text, size_t text_len,
    const uint32_t *starts, size_t starts_len,
    const uint32_t *places, size_t places_len,
    const uint8_t *asks, size_t asks_len,
    const uint32_t *ask_starts, size_t ask_starts_len,
    nullahbowl_part *parts, size_t parts_len);

#ifdef __cplusplus
}
#endif

#endif
