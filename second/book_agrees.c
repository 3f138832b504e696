/* book_agrees.c - the slow model held against the slot book. */
#include "book_model.h"

bool model_agrees_briefly(const struct model *model, const struct lent *lent)
{
    const struct plan *plan = &lent->book.channel.plan;
    return lent->book.now == model->now % 20250 && plan->rate == model->plan.rate && plan->start == model->plan.start
        && ship_same(&lent->book.ship, &model->ship);
}

static bool record_agrees(const struct model *model, const struct model_record *record, const struct station *station)
{
    size_t hold_off = record->held_off_until > model->now ? record->held_off_until - model->now : 0;
    return station->source == model_source(record->station) && station->base == record->base
        && station->latitude == record->latitude && station->longitude == record->longitude
        && station->hold_off == hold_off;
}

static uint32_t source_of_holder(const struct lent *lent, uint16_t holder)
{
    return holder == 0 ? 0 : lent->records[holder - 1].source;
}

static bool holder_agrees(const struct lent *lent, uint16_t holder, uint16_t in_model)
{
    if (holder > 255) {
        return holder == 256 && in_model == MODEL_OWN;
    }
    return in_model != MODEL_OWN && source_of_holder(lent, holder) == model_source(in_model);
}

bool model_agrees(const struct model *model, const struct lent *lent)
{
    for (size_t time = model->now; time < model->now + 20250; time++) {
        if (!holder_agrees(lent, lent->slots[time % 20250], model->holders[time])) {
            return false;
        }
    }
    for (size_t i = 0; i < 255; i++) {
        if (!record_agrees(model, &model->records[i], &lent->records[i])) {
            return false;
        }
    }
    return model_agrees_briefly(model, lent);
}
