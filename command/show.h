/* What is shown of a partial file as text: its map, with or without names for what is missing, its boxes, and its
   tables. */
#ifndef SHOW_H
#define SHOW_H

#include "meant.h"

/* The map of all sources, or of the one that is named. */
_Noreturn void show_map(const char *name, const struct meant *meant, bool missing);
_Noreturn void show_boxes(const char *name);

/* Texts with each byte that does not print as \xNN, or, of the URL, as it is handed to a program that fetches, in
   its percent form. */
_Noreturn void show_rows(const char *name, bool percent);

#endif
