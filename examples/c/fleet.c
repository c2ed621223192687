/* The fleet statement: counts one ship after another, each a folder with net.sheet, weights.sheet and movements.sheet, and prints the record in words.
 *
 *   cc -I include examples/c/fleet.c target/staticlib/libabi.a -o fleet
 *   ./fleet examples/refit examples/document examples/rack
 *
 * A ship that is refused is named and not counted. rust/pnet/examples/fleet.rs prints the same.
 */
#include <inttypes.h>
#include <stdio.h>
#include <string.h>

#include "pnet.h"

struct sheet {
    uint8_t bytes[65536];
    size_t length;
};

/* A file that cannot be read has no bytes, and the ship is refused by 1. */
static void load(const char *folder, const char *name, struct sheet *sheet)
{
    char path[4096];
    sheet->length = 0;
    if ((size_t)snprintf(path, sizeof path, "%s/%s.sheet", folder, name) >= sizeof path)
        return;
    FILE *file = fopen(path, "rb");
    if (!file)
        return;
    sheet->length = fread(sheet->bytes, 1, sizeof sheet->bytes, file);
    fclose(file);
}

static const char *const THINGS[] = {"the net", "the weights", "the movements", "the record"};

/* The refusals that a ship's run may meet, in the order of the record's counts. */
static const char *const REFUSALS[] = {"a movement that is not there (6)", "too few (11)", "no room (12)", "too many for it (13)",
                                       "the counter's limit (14)"};

static void ship(struct pnet_fleet *record, const char *folder)
{
    static struct sheet net, weights, movements;
    struct pnet_fleet before = *record;
    load(folder, "net", &net);
    load(folder, "weights", &weights);
    load(folder, "movements", &movements);
    struct pnet_answer answer = pnet_fleet_add(record, net.bytes, net.length, weights.bytes, weights.length, movements.bytes,
                                               movements.length);
    if (answer.number != 0) {
        printf("%s: refused by %" PRIu64 ", %s, at %" PRIu64 "\n", folder, answer.number, THINGS[answer.thing], answer.position);
        return;
    }
    printf("%s: %" PRIu64 " movements, %" PRId64 " kg added, %" PRId64 " kg removed", folder, record->movements - before.movements,
           record->added - before.added, record->removed - before.removed);
    for (int by = 0; by < 5; by++)
        if (record->refused[by] != before.refused[by])
            printf("; stopped by %s", REFUSALS[by]);
    printf("\n");
}

int main(int argc, char **argv)
{
    struct pnet_fleet record;
    memset(&record, 0, sizeof record);
    for (int each = 1; each < argc; each++)
        ship(&record, argv[each]);
    printf("ships counted: %" PRIu64 "\n", record.ships);
    printf("movements accepted: %" PRIu64 "\n", record.movements);
    for (int by = 0; by < 5; by++)
        printf("ships stopped by %s: %" PRIu64 "\n", REFUSALS[by], record.refused[by]);
    printf("added: %" PRId64 " kg\n", record.added);
    printf("removed: %" PRId64 " kg\n", record.removed);
    return 0;
}
