/* What the files of the program `callbacks` share. */
#ifndef CALLBACKS_H
#define CALLBACKS_H

#include "library.h"

/* Builds a message of what the words name. */
int build_words(char **words, int count);

/* Gives each call a NULL in each place. */
int give_nulls(void);

#endif
