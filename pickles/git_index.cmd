map git_index.pk Index git_index.index
