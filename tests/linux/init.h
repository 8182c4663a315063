/* What process 1 of the user-mode kernel does before its socket and after it, and whether its card's packets are cut late, several at once (init.c). */
void set_up(void);
void set_gso(int is_on);
void power_off(void);
