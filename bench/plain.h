/* The nine calls in plain C: the declarations of saltbalance.h under other names, so that both sides have the same boundary. */
#ifndef PLAIN_H
#define PLAIN_H

#define saltbalance_build plain_build
#define saltbalance_ask plain_ask
#define saltbalance_go_on plain_go_on
#define saltbalance_give_back plain_give_back
#define saltbalance_switch plain_switch
#define saltbalance_tick plain_tick
#define saltbalance_whole plain_whole
#define saltbalance_cover plain_cover
#define saltbalance_map plain_map

#include "saltbalance.h"

#endif
