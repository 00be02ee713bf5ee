/* What the player asks of the file system. */
#ifndef PLAYER_FILES_H
#define PLAYER_FILES_H

/* Whether two names stand for one file that is there. */
int is_same_file(const char *a, const char *b);

/* Removes a file that could not be finished; a device or a pipe stays. */
void remove_unfinished(const char *name);

#endif
