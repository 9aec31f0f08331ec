/* settings.h: a table's radio settings, kept in a store in memory and in a file. */
#ifndef SETTINGS_H
#define SETTINGS_H

#include "dsss.h"

/* Shows how settings are stored, read, changed, saved in a file and read back from it. Whether the file could be
 * written and read: then these are the settings that the table has. */
int keep_settings(dsss_settings *settings);

/* Whether the guard octets around the stores are as they were. */
int store_guards_stand(void);

#endif
