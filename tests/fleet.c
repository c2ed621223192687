/* A fleet's record through C: 1,000 ships and the 1,001st, and both sides of every bound of the record.
 *
 *   cc -I include tests/fleet.c target/staticlib/libabi.a -o fleet && ./fleet examples/document
 *
 * The ship is the small net of docs/RULES.md: three movements that take off 250 kg each, and a fourth that is refused by 11.
 * Exit status 1 where an answer or a record is another than docs/RULES.md says.
 */
#include <inttypes.h>
#include <stdio.h>
#include <string.h>

#include "pnet.h"

static const int64_t MOST = INT64_C(1000000000000000000);
static uint8_t sheets[3][4096];
static size_t lengths[3];
static int faults;

static void load(const char *folder, const char *name, int at)
{
    char path[4096];
    snprintf(path, sizeof path, "%s/%s.sheet", folder, name);
    FILE *file = fopen(path, "rb");
    if (file) {
        lengths[at] = fread(sheets[at], 1, sizeof sheets[at], file);
        fclose(file);
    }
}

static struct pnet_answer add(struct pnet_fleet *record)
{
    return pnet_fleet_add(record, sheets[0], lengths[0], sheets[1], lengths[1], sheets[2], lengths[2]);
}

/* What the call must answer, and what it must leave: the ship counted, or the record as it was found. */
static void expect(const char *what, struct pnet_fleet found, uint64_t number, uint64_t thing)
{
    struct pnet_fleet left = found, right = found;
    if (number == 0) {
        right.ships += 1;
        right.movements += 3;
        right.refused[1] += 1;
        right.removed += 750;
    }
    struct pnet_answer answer = add(&left);
    int wrong = answer.number != number || answer.thing != thing || answer.position != 0 || answer.amount != 0;
    if (wrong || memcmp(&left, &right, sizeof left) != 0) {
        fprintf(stderr, "%s: answered by %" PRIu64 ", thing %" PRIu64 ", where %" PRIu64 " is due, or another record was left\n", what,
                answer.number, answer.thing, number);
        faults++;
    }
}

int main(int argc, char **argv)
{
    const char *const names[3] = {"net", "weights", "movements"};
    struct pnet_fleet record, zeros;
    memset(&zeros, 0, sizeof zeros);
    for (int each = 0; each < 3; each++)
        load(argc > 1 ? argv[1] : ".", names[each], each);

    record = zeros;
    for (int ship = 1; ship <= PNET_SHIPS; ship++) {
        expect("a ship", record, 0, PNET_NET);
        add(&record);
    }
    if (record.ships != 1000 || record.movements != 3000 || record.refused[1] != 1000 || record.added != 0 || record.removed != 750000) {
        fprintf(stderr, "1,000 ships make another record\n");
        faults++;
    }
    expect("ship 1,001", record, 4, PNET_ARGUMENT);
    record.ships = 1001;
    expect("1,001 ships", record, 25, PNET_NET);

    record = zeros;
    record.movements = 8192000;
    expect("8,192,000 movements", record, 0, PNET_NET);
    record.movements = 8192001;
    expect("8,192,001 movements", record, 25, PNET_NET);
    for (int by = 0; by < 5; by++) {
        record = zeros;
        record.refused[by] = 1000;
        expect("1,000 refused", record, 0, PNET_NET);
        record.refused[by] = 1001;
        expect("1,001 refused", record, 25, PNET_NET);
    }

    record = zeros;
    record.added = MOST;
    expect("10^18 added", record, 0, PNET_NET);
    record.added = MOST + 1;
    expect("10^18 and one added", record, 25, PNET_NET);
    record.added = -1;
    expect("less than nothing added", record, 25, PNET_NET);
    record = zeros;
    record.removed = MOST - 750;
    expect("750 to go", record, 0, PNET_NET);
    record.removed = MOST - 749;
    expect("749 to go", record, 24, PNET_NET);
    record.removed = MOST;
    expect("10^18 removed", record, 24, PNET_NET);
    record.removed = MOST + 1;
    expect("10^18 and one removed", record, 25, PNET_NET);
    record.removed = INT64_MIN;
    expect("less than nothing removed", record, 25, PNET_NET);

    /* A made-up record is counted on past a bound, and refused from then on; a ship without sheets is refused after 25 and 4. */
    record = zeros;
    record.refused[1] = 1000;
    add(&record);
    expect("1,001 refused by counting", record, 25, PNET_NET);
    lengths[0] = 0;
    expect("no net, and a record out of bounds", record, 25, PNET_NET);
    record = zeros;
    record.ships = 1000;
    expect("no net for ship 1,001", record, 4, PNET_ARGUMENT);
    expect("no net", zeros, 1, PNET_NET);
    printf("fleet: %d faults\n", faults);
    return faults != 0;
}
