/* The trace of trace.h. */
#include "trace.h"

void trace_head(FILE *to, const nvmearb_config *config)
{
    const char *mechanism = config->mechanism == NVMEARB_WEIGHTED ? "weighted" : "round-robin";
    fprintf(to, "{\"version\":1,\"mechanism\":\"%s\",\"cdw11\":%u}\n", mechanism, config->cdw11);
}

void trace_look(const nvmearb_ctrl *ctrl, uint16_t room, struct trace_view *view)
{
    view->room = room;
    view->count = 0;
    for (uint16_t qid = 0; qid < NVMEARB_MAX_QUEUES; qid++)
        view->count += nvmearb_ctrl_seen(ctrl, qid, &view->seen[view->count]) == NVMEARB_OK;
}

void trace_step(FILE *to, const struct trace_view *view, const nvmearb_step *step)
{
    static const char *const classes[] = {"admin", "urgent", "high", "medium", "low"};
    /* the pick of a command that the controller carried out itself isn't told: it is one of the admin queue */
    nvmearb_pick pick = step->kind == NVMEARB_CARRIED_OUT ? (nvmearb_pick){.qid = 0, .n = 1} : step->pick;
    fprintf(to, "{\"pick\":%u,\"n\":%u,", pick.qid, pick.n);
    if (view->room < NVMEARB_MAX_COUNT) /* a larger one is no limit */
        fprintf(to, "\"room\":%u,", view->room);
    fprintf(to, "\"fresh\":%s,\"seen\":[", pick.fresh ? "true" : "false");
    for (size_t k = 0; k < view->count; k++) {
        const nvmearb_seen *it = &view->seen[k];
        fprintf(to, "%s[%u,\"%s\",%u]", k ? "," : "", it->qid, classes[it->priority], it->count);
    }
    fprintf(to, "]}\n");
    if (step->kind == NVMEARB_CARRIED_OUT && step->answer.verdict == NVMEARB_SET_ARBITRATION)
        fprintf(to, "{\"set\":%u}\n", step->answer.cdw11);
}
