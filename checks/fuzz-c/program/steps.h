/* Tries of the calls step by step. */
#ifndef STEPS_H
#define STEPS_H

#include "corpus.h"
#include "states.h"

/*
 * The packets of a legal log, event by event, are those of its capture, and the payloads, one by one, are decoded to
 * the events of the log.
 */
void try_log_in_steps(struct program *program);

/* Any event or the end of a log, at any state. */
void try_push(struct program *program);
void try_finish(struct program *program);

/* Makes a log another one, most often an illegal one: an event goes, comes twice, changes places or is changed. */
void derange(struct events *events);

/* Any event after any other. */
void try_follow(struct program *program);

/* Events, most often illegal ones, are judged as their text is, and each as the one after the event before it. */
void try_check_events(struct program *program);

/* Any payload, at any state. */
void try_feed(struct program *program);

/* Any message at any state of a hart is taken by its number, and fed as its payload is; and a hart goes on anywhere. */
void try_receive(struct program *program);
void try_resume(struct program *program);

/* Any events, and any payloads, at any state: many at a call are taken as one by one. */
void try_push_all(struct program *program);
void try_feed_all(struct program *program);

/* The version is that of the header. */
void try_version(struct program *program);

/* Any period and mode. */
void try_encoder(struct program *program);

#endif
