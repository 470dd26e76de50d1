/*
 * generate.c - writes a stream of records for one of the programs.
 */
#include <stdio.h>

#include "generate.h"

enum { CARD_SEEDS = 1000000, SET_SEEDS = 2000000, PARTY_SEEDS = 3000000 };

void write_record(struct generator *g, const uint8_t *record)
{
    if (g->left <= 0)
        return;
    fwrite(record, 1, RECORD_BYTES, stdout);
    struct call call = read_record(g->program, record);
    perform(&g->model, &call);
    g->left--;
}

/* The berth that a record was about, as far as it was about one. */
static int berth_of(const struct generator *g, const uint8_t *record)
{
    switch (record[0]) {
    case FRAME:
        return record[3] % 16 % BERTHS;
    case TURN:
        return g->model.node.served % BERTHS;
    default:
        return record[1] % BERTHS;
    }
}

void emit(struct generator *g, const uint8_t *record)
{
    write_record(g, record);
    if (g->program == SCENES && !g->plain) {
        deal_cards(g, berth_of(g, record));
        deal_changes(g, berth_of(g, record));
        deal_senders(g, berth_of(g, record));
    }
}

static void exerciser_stretch(struct generator *g)
{
    switch (roll(&g->dice, 16)) {
    case 0: case 1:
        stretch_of_waiting(g);
        break;
    case 2:
        stretch_of_noise(g);
        break;
    case 3:
        stretch_of_bad_records(g);
        break;
    case 4: case 5: case 6: case 7:
        stretch_of_transfer(g);
        break;
    default:
        stretch_of_crowd(g);
        break;
    }
}

/* A node that noise or a load has left unusable would refuse the rest of the stream. */
static void scenes_stretch(struct generator *g)
{
    if (!usable(&g->model) && chance(&g->dice, 80))
        settle(g);
    switch (roll(&g->dice, 12)) {
    case 0:
        stretch_of_noise(g);
        break;
    case 1:
        stretch_of_bad_records(g);
        break;
    case 2: case 3:
        stretch_of_transfer(g);
        break;
    case 4: case 5: case 6:
        stretch_of_crowd(g);
        break;
    default:
        stretch_of_scenes(g);
        break;
    }
}

static void write_cut_record(struct generator *g)
{
    int length = between(&g->dice, 1, RECORD_BYTES - 1);
    for (int i = 0; i < length; i++)
        putchar(roll(&g->dice, 256));
}

/* Streams of odd seeds end in a cut record, so that both ends are seen. */
void generate(enum program program, uint64_t seed, long records)
{
    struct generator g = {
        .dice = { seed }, .card_dice = { seed + CARD_SEEDS }, .set_dice = { seed + SET_SEEDS },
        .party_dice = { seed + PARTY_SEEDS }, .program = program, .left = records,
    };
    open_world(&g.model, program);
    if (program == SCENES)
        emit_header(&g, seed);
    while (g.left > 0) {
        if (program == EXERCISER)
            exerciser_stretch(&g);
        else
            scenes_stretch(&g);
    }
    if (seed % 2 == 1)
        write_cut_record(&g);
    close_world(&g.model);
}
