/*
 * Where tests/boundary.c lends from: one arena with guard bytes around each slice, so that what a call changes shows; and what is
 * said of it.
 */
#ifndef BOUNDARY_ARENA_H
#define BOUNDARY_ARENA_H

#include "boundary.h"

#include <stdio.h>
#include <stdlib.h>
#include <string.h>

/* All slices with guard bytes around each, and as they stand before each call. */
static uint8_t *arena, *prepared;
static size_t arena_size, place[SLICES];

static bool group_failed, any_failed;

static void expect(bool holds, const char *call, const char *slice, const char *what) {
    if (!holds) {
        printf("boundary:   %s, %s: %s\n", call, slice, what);
        group_failed = true;
    }
}

static void end_group(const char *what) {
    printf("boundary: %s: %s\n", group_failed ? "FAILED" : "ok", what);
    any_failed |= group_failed;
    group_failed = false;
}

/* Lends every slice in the arena, with its right length, as prepared. */
static void lend_all(void) {
    memcpy(arena, prepared, arena_size);
    for (int s = 0; s < SLICES; s++) {
        lent[s].start = arena + place[s];
        lent[s].elements = kinds[s].elements;
    }
}

static void lend_nothing(enum slice s) {
    lent[s].start = NULL;
    lent[s].elements = 0;
}

static bool unchanged(void) { return memcmp(arena, prepared, arena_size) == 0; }

/* Whether a call has kept to what it writes: all else is unchanged, with the guard bytes and the spare elements. */
static bool rest_unchanged(const struct call *call) {
    for (int s = 0; s < SLICES; s++) {
        bool part = s == OUT || s == STRANDS;
        size_t from = part ? call->from : 0, to = part ? call->to : kinds[s].elements * kinds[s].size;
        if (call->writes & OF(s)) {
            memcpy(arena + place[s] + from, prepared + place[s] + from, to - from);
        }
    }
    return unchanged();
}

/* Finds each slice its place: guard bytes, the slice, one element to spare. */
static void lay_out(void) {
    size_t at = GUARD;
    for (int s = 0; s < SLICES; s++) {
        place[s] = at;
        at += (kinds[s].elements + 1) * kinds[s].size + GUARD;
        at += (8 - at % 8) % 8;
    }
    arena_size = at;
    arena = (uint8_t *)malloc(at);
    prepared = (uint8_t *)malloc(at);
    if (arena == NULL || prepared == NULL) {
        exit(2);
    }
    for (size_t i = 0; i < at; i++) {
        prepared[i] = (uint8_t)(0xA5 ^ i % 251);
    }
}

static void put(enum slice s, const void *content, size_t size) { memcpy(arena + place[s], content, size); }

#endif
