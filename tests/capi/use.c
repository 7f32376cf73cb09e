/* The library from C: names are put in order by their sort keys, the list is checked and asked, and some things are turned
 * away. */
#include <stdio.h>
#include <stdlib.h>
#include <string.h>

#include "nullahbowl.h"

/* The valley's table: letters by their place in the alphabet, large ones behind small ones on the third level, the mark '
 * from the second level on, and ch one letter behind c. What else there is counts on the third level only. */
static uint16_t letters[NULLAHBOWL_LETTERS_LEN];
static const uint16_t pairs[] = {'c', 'h', 35, 1, 1};

static void weigh(unsigned char letter, uint16_t first, uint16_t second, uint16_t third)
{
    letters[3 * letter] = first;
    letters[3 * letter + 1] = second;
    letters[3 * letter + 2] = third;
}

static void fill_table(void)
{
    for (int letter = 0; letter < 256; letter++)
        weigh((unsigned char)letter, 0, 0, 1);
    for (int i = 0; i < 26; i++) {
        weigh((unsigned char)('a' + i), (uint16_t)(10 * (i + 1)), 1, 1);
        weigh((unsigned char)('A' + i), (uint16_t)(10 * (i + 1)), 1, 2);
    }
    weigh('\'', 0, 2, 1);
}

/* The names as they came: all one behind the other, where each begins, and the end. */
static const char text[] = "dachadczcadcab'Cabcab";
static const uint32_t starts[] = {0, 2, 6, 8, 11, 15, 18, 21};
enum { NAMES = 7 };
static uint32_t places[NAMES];

/* Every call takes the same table, and most the same lists. */
#define BYTES(string) (const uint8_t *)(string), strlen(string)
#define COUNTED(array) (array), sizeof(array) / sizeof((array)[0])
#define TABLE COUNTED(letters), COUNTED(pairs), 1
#define LISTS BYTES(text), COUNTED(starts), COUNTED(places)

static void print_name(uint32_t number)
{
    printf(" %.*s", (int)(starts[number + 1] - starts[number]), text + starts[number]);
}

static void print_part(nullahbowl_part part)
{
    for (size_t i = 0; i < part.length; i++)
        print_name(places[part.place + i]);
    if (part.length == 0)
        printf(" none, at %zu", part.place);
    printf("\n");
}

/* A name's number and its key. */
struct keyed {
    uint32_t number;
    uint64_t length;
    uint16_t *key;
};

/* The key of a name: one call says how much room it needs, the next one fills it. */
static struct keyed make_key(uint32_t number)
{
    const uint8_t *name = (const uint8_t *)text + starts[number];
    size_t length = starts[number + 1] - starts[number];
    uint16_t none;
    nullahbowl_key_answer answer = nullahbowl_key(TABLE, name, length, &none, 0);
    struct keyed made = {number, answer.number, NULL};
    if (answer.what == NULLAHBOWL_SHORT)
        made.key = malloc(made.length * sizeof *made.key);
    if (made.key != NULL)
        answer = nullahbowl_key(TABLE, name, length, made.key, made.length);
    if (answer.what != NULLAHBOWL_KEYED) {
        fprintf(stderr, "no key, or no memory for it\n");
        exit(EXIT_FAILURE);
    }
    return made;
}

/* Number by number; a key that has ended comes first. */
static int compare(const void *a, const void *b)
{
    const struct keyed *x = a;
    const struct keyed *y = b;
    for (uint64_t i = 0; i < x->length && i < y->length; i++)
        if (x->key[i] != y->key[i])
            return x->key[i] < y->key[i] ? -1 : 1;
    return (x->length > y->length) - (x->length < y->length);
}

static void put_in_order(void)
{
    struct keyed all[NAMES];
    for (uint32_t number = 0; number < NAMES; number++)
        all[number] = make_key(number);
    qsort(all, NAMES, sizeof all[0], compare);
    for (size_t i = 0; i < NAMES; i++) {
        places[i] = all[i].number;
        print_name(all[i].number);
        printf(":");
        for (uint64_t k = 0; k < all[i].length; k++)
            printf(" %u", all[i].key[k]);
        printf("\n");
        free(all[i].key);
    }
}

static const char *const verdicts[] = {
    [NULLAHBOWL_FINE] = "nothing is wrong",
    [NULLAHBOWL_BAD_TABLE] = "the table is none",
    [NULLAHBOWL_NO_START] = "there is no start",
    [NULLAHBOWL_START_FALLS] = "a start is before the one in front of it",
    [NULLAHBOWL_NAME_TOO_LONG] = "a name is too long",
    [NULLAHBOWL_ENDS_ELSEWHERE] = "the last start is not the end",
    [NULLAHBOWL_NO_SUCH_NAME] = "a number is no name's",
    [NULLAHBOWL_OUT_OF_ORDER] = "the list is not in order",
    [NULLAHBOWL_BAD_QUESTIONS] = "the questions are not as names should be",
    [NULLAHBOWL_OTHER_PARTS] = "there are not as many parts as questions",
};

static void say(const char *what, nullahbowl_verdict verdict)
{
    printf("%s: %s, %llu\n", what, verdicts[verdict.what], (unsigned long long)verdict.place);
}

static void ask_one_by_one(void)
{
    const char *const asks[] = {"c", "ch", "CAB", "'", "ce"};
    for (size_t i = 0; i < sizeof asks / sizeof asks[0]; i++) {
        printf("find %s:", asks[i]);
        print_part(nullahbowl_find(TABLE, LISTS, BYTES(asks[i])));
    }
}

/* The same questions at once. */
static void ask_all_at_once(void)
{
    static const char asks[] = "cchCAB'ce";
    static const uint32_t ask_starts[] = {0, 1, 3, 6, 7, 9};
    nullahbowl_part parts[5];
    say("find each", nullahbowl_find_each(TABLE, LISTS, BYTES(asks), COUNTED(ask_starts), COUNTED(parts)));
    for (size_t i = 0; i < 5; i++)
        print_part(parts[i]);
    static const uint32_t falling[] = {0, 1, 3, 2, 7, 9};
    say("questions whose starts fall",
        nullahbowl_find_each(TABLE, LISTS, BYTES(asks), COUNTED(falling), COUNTED(parts)));
    say("parts for four of five questions",
        nullahbowl_find_each(TABLE, LISTS, BYTES(asks), COUNTED(ask_starts), parts, 4));
}

static void be_turned_away(void)
{
    static const uint16_t twice[] = {'c', 'h', 35, 1, 1, 'c', 'h', 40, 1, 1};
    static const uint32_t falling[] = {0, 2, 6, 5, 11, 15, 18, 21};
    static const uint32_t beyond[] = {0, 2, 6, 8, 11, 15, 18, 22};
    static const uint32_t whole[] = {0, NULLAHBOWL_MAX_NAME + 1};
    static const uint32_t unknown[] = {6, 5, NAMES};
    static const uint32_t turned[] = {6, 5, 4, 3, 2, 0, 1};
    static uint8_t long_name[NULLAHBOWL_MAX_NAME + 1];
    uint16_t room[NULLAHBOWL_MAX_KEY];

    say("a pair twice", nullahbowl_check(COUNTED(letters), COUNTED(twice), 2, LISTS));
    say("no starts", nullahbowl_check(TABLE, BYTES(text), starts, 0, COUNTED(places)));
    say("starts that fall", nullahbowl_check(TABLE, BYTES(text), COUNTED(falling), COUNTED(places)));
    say("1,001 letters", nullahbowl_check(TABLE, COUNTED(long_name), COUNTED(whole), places, 0));
    say("an end behind the text", nullahbowl_check(TABLE, BYTES(text), COUNTED(beyond), COUNTED(places)));
    say("an eighth of seven names", nullahbowl_check(TABLE, BYTES(text), COUNTED(starts), COUNTED(unknown)));
    say("chad behind da", nullahbowl_check(TABLE, BYTES(text), COUNTED(starts), COUNTED(turned)));

    nullahbowl_key_answer answer = nullahbowl_key(TABLE, COUNTED(long_name), COUNTED(room));
    if (answer.what == NULLAHBOWL_REFUSED && answer.number == NULLAHBOWL_REFUSED_NAME)
        printf("a key of 1,001 letters: refused, the name is too long\n");
    answer = nullahbowl_key(COUNTED(letters), COUNTED(twice), 2, BYTES("cab"), COUNTED(room));
    if (answer.what == NULLAHBOWL_REFUSED && answer.number == NULLAHBOWL_REFUSED_TABLE)
        printf("a key with a pair twice: refused, the table is none\n");
}

int main(void)
{
    fill_table();
    put_in_order();
    say("the list", nullahbowl_check(TABLE, LISTS));
    ask_one_by_one();
    ask_all_at_once();
    be_turned_away();
    return EXIT_SUCCESS;
}
