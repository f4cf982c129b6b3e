map --whole sqlite3.pk Database sqlite3_holed.db
