// header.cpp: dsss.h as C++. Each call is made once with empty rows, so the names must be C's:
// linked with a library built as C, this fails if they are not. The names of four are macros: they must
// stand wherever C++ has a function's name, as in a namespace, behind :: and where it is taken as a value.
#include "dsss.h"

#include <cstdio>

namespace radio {
using ::dsss_write;
typedef dsss_record (*hard_reader)(uint64_t, const uint8_t *, size_t, uint8_t *, size_t);
static const hard_reader read_hard = &dsss_read_hard;
typedef dsss_record (*guide)(const uint8_t *, size_t, uint8_t *, size_t);
static const guide read_1997 = &dsss_read_1997;
typedef dsss_coming (*front_reader)(uint64_t, const uint8_t *, size_t);
static const front_reader read_front = &dsss_read_front;
typedef dsss_reason (*asker)(uint64_t, const uint8_t *, size_t, uint64_t);
static const asker why = &dsss_why;
typedef uint64_t (*store_writer)(uint64_t, uint64_t, uint64_t, uint8_t *, size_t);
static const store_writer store_write = &dsss_store_write;
typedef dsss_text (*speller)(dsss_report, uint8_t *, size_t);
static const speller report_text = &dsss_report_text;
}

// Whether the calls of the report count, refuse and spell as they must: one empty recording, refused with 8.
static bool reports()
{
    const uint64_t kinds[1] = {DSSS_LONG};
    const dsss_chips list[1] = {{NULL, 0}};
    uint8_t text[DSSS_TEXT_MAX];
    dsss_report report = dsss_report();
    dsss_counted added = ::dsss_report_add(report, DSSS_LONG, NULL, 0), listed = dsss_report_list(kinds, 1, list, 1);
    report.seen = DSSS_RECORDINGS_MAX;
    dsss_counted full = dsss_report_add(report, DSSS_LONG, NULL, 0);
    dsss_counted odd = ::dsss_report_list(kinds, 1, NULL, 0);
    dsss_text spelled = radio::report_text(added.report, text, DSSS_TEXT_MAX), none = dsss_report_text(report, NULL, 0);

    return added.number == 0 && added.report.seen == 1 && added.report.refused[DSSS_REFUSED_FRONT] == 1
           && listed.number == 0 && listed.report.refused[DSSS_REFUSED_FRONT] == 1
           && full.number == DSSS_REFUSED_REPORT && full.report.seen == DSSS_RECORDINGS_MAX
           && odd.number == DSSS_REFUSED_ROWS && odd.report.seen == 0 && spelled.number == 0
           && text[spelled.octets - 1] == 10 && none.number == DSSS_REFUSED_OCTET_ROOM && none.octets == 0;
}

// Whether reasons show what was expected and what was found: no chips, and a kind that is none, with any room.
static bool reasons()
{
    dsss_reason front = radio::why(DSSS_SHORT, NULL, 0, 0), kind = ::dsss_why(256, NULL, 0, ~(uint64_t)0);

    return front.number == DSSS_REFUSED_FRONT && front.place == 0 && front.expected == DSSS_FRONT_SHORT
           && front.found == 0 && kind.number == DSSS_REFUSED_KIND && kind.expected == 0 && kind.found == 256;
}

// Whether a store is written, read and changed, and refused where it has no room, no octets or another tag.
static bool stores()
{
    uint8_t store[DSSS_STORE_OCTETS];
    uint64_t written = radio::store_write(DSSS_SHORT, DSSS_RATE_11, 3, store, DSSS_STORE_OCTETS);
    uint64_t changed = ::dsss_store_change(store, DSSS_STORE_OCTETS, DSSS_TAG_PHASE, 2);
    dsss_settings settings = ::dsss_store_read(store, DSSS_STORE_OCTETS), none = dsss_store_read(NULL, 0);

    return written == 0 && changed == 0 && settings.number == 0 && settings.kind == DSSS_SHORT
           && settings.rate == DSSS_RATE_11 && settings.phase == 2 && none.number == DSSS_REFUSED_STORE_CUT
           && dsss_store_write(DSSS_LONG, DSSS_RATE_1, 0, NULL, 0) == DSSS_REFUSED_STORE_ROOM
           && dsss_store_change(store, DSSS_STORE_OCTETS, 256 + DSSS_TAG_PHASE, 2) == DSSS_REFUSED_CHANGE_TAG;
}

int main()
{
    dsss_written written = radio::dsss_write(DSSS_LONG, DSSS_RATE_11, 0, 1, NULL, 0, NULL, 0);
    dsss_record hard = radio::read_hard(DSSS_SHORT, NULL, 0, NULL, 0);
    dsss_record soft = dsss_read_soft(DSSS_SHORT + 1, NULL, 0, NULL, 0, NULL, 0);
    dsss_record bytes = ::dsss_read_bytes(DSSS_LONG, NULL, 0, NULL, 0);
    dsss_record guide = radio::read_1997(NULL, 0, NULL, 0);
    dsss_coming coming = radio::read_front(DSSS_SHORT, NULL, 0);
    dsss_found none = ::dsss_find(DSSS_SHORT, NULL, 0, 0), found = dsss_find(DSSS_LONG, NULL, 0, DSSS_OFFSETS_MAX);

    if (written.number != DSSS_REFUSED_PAYLOAD || hard.number != DSSS_REFUSED_FRONT
        || soft.number != DSSS_REFUSED_KIND || bytes.number != DSSS_REFUSED_FRONT
        || guide.number != DSSS_REFUSED_FRONT || ::dsss_read_1997(NULL, 0, NULL, 0).length != 0
        || coming.number != DSSS_REFUSED_FRONT || coming.at != 0 || coming.count != 0
        || none.number != DSSS_REFUSED_OFFSETS || found.number != DSSS_REFUSED_NO_START || found.offset != 0
        || hard.lead != 0 || soft.symbol != 0 || bytes.lead != 0 || !reasons() || !reports()
        || !stores()) {
        std::puts("header.cpp: a refusal is not the one expected");
        return 1;
    }
    return dsss_sentence(0)[0] == '\0';
}
