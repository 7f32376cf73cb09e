// What is timed of ICU: one collator of German, asked in UTF-8.
#include <stdint.h>
#include <unicode/ucol.h>
#include <unicode/ustring.h>

enum { MAX_NAME = 1000 };

static UCollator *collator;

// Whether there is a collator; its strength is the usual one, three levels.
int icu_open(char version[U_MAX_VERSION_STRING_LENGTH]) {
    UErrorCode status = U_ZERO_ERROR;
    UVersionInfo numbers;
    u_getVersion(numbers);
    u_versionToString(numbers, version);
    collator = ucol_open("de", &status);
    return U_SUCCESS(status);
}

// A name's sort key, and how many bytes it has without the 0 behind it; 0 where it has no room. ICU makes keys of UTF-16.
int32_t icu_key(const char *name, int32_t length, uint8_t *room, int32_t size) {
    UChar wide[MAX_NAME];
    int32_t units = 0;
    UErrorCode status = U_ZERO_ERROR;
    u_strFromUTF8WithSub(wide, MAX_NAME, &units, name, length, 0xFFFD, NULL, &status);
    if (U_FAILURE(status)) {
        return 0;
    }
    int32_t needs = ucol_getSortKey(collator, wide, units, room, size);
    return needs <= size ? needs - 1 : 0;
}

int icu_compare(const char *a, int32_t a_length, const char *b, int32_t b_length) {
    UErrorCode status = U_ZERO_ERROR;
    return ucol_strcollUTF8(collator, a, a_length, b, b_length, &status);
}

// The keys of all names that begin as one does on the first level are from its lower bound on and below its upper one. The
// key has its 0 behind it; the bound is counted without.
int32_t icu_bound(const uint8_t *key, int32_t length, int upper, uint8_t *room, int32_t size) {
    UErrorCode status = U_ZERO_ERROR;
    UColBoundMode mode = upper ? UCOL_BOUND_UPPER_LONG : UCOL_BOUND_LOWER;
    int32_t needs = ucol_getBound(key, length + 1, mode, 1, room, size, &status);
    return U_SUCCESS(status) && needs <= size ? needs - 1 : 0;
}
