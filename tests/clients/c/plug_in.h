/* What c/plugged.c calls of the plug-in that it loads. */
#ifndef PLUG_IN_H
#define PLUG_IN_H

#include "../check.h"

typedef struct plug_in {
    pq_code (*push)(pq_queue *queue);
    pq_code (*pop)(pq_queue *queue);
    pq_code (*listen_to)(pq_queue *queue, int fd);
    pq_code (*join)(pq_queue *queue, pq_member **member);
    pq_code (*shut)(pq_queue *queue);
} plug_in;

#endif
