int f(void) {
int x = 0;
return 10 / x;
}
