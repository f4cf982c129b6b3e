map --whole sqlite3.pk Database sqlite3.db
