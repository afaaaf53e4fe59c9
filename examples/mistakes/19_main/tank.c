int level;
int step = 1;
