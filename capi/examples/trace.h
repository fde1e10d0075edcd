/* A trace of a controller's picks, which `nvmearb check`, `stats` and `chart` read (docs/FORMATS.md, "Trace"). */
#ifndef TRACE_H
#define TRACE_H

#include <nvmearb.h>
#include <stdio.h>

/* What a pick is shown: each open submission queue, by ascending identifier, and the room that there is. */
struct trace_view {
    uint16_t room;
    size_t count;
    nvmearb_seen seen[NVMEARB_MAX_QUEUES];
};

/* Writes the head of the trace of a controller that was made with this. */
void trace_head(FILE *to, const nvmearb_config *config);

/* Looks at the queues, just before nvmearb_ctrl_pick with this room. */
void trace_look(const nvmearb_ctrl *ctrl, uint16_t room, struct trace_view *view);

/* Writes the pick that nvmearb_ctrl_pick made, and the settings of the Arbitration feature if it set them. */
void trace_step(FILE *to, const struct trace_view *view, const nvmearb_step *step);

#endif
