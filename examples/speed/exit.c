/* Ends at once: what starting and ending a run takes. */
int main(void) { return 0; }
