/* A controller gives a value from 0 to 1000, whatever is measured. */
#define OUT_MIN 0
#define OUT_MAX 1000
#ifdef CONFIG_ANTIWINDUP
#define I_MAX 20000
#endif
int adc_read(void);
void pwm_set(void);

int main(void)
{
    static int32_t integral, last_error;
    for (;;) {
        int32_t measured = adc_read();
        if (measured < 0 || measured > 4095)
            measured = 0;
        int32_t error = 2048 - measured;
        integral += error;
#ifdef CONFIG_ANTIWINDUP
        if (integral < -I_MAX)
            integral = -I_MAX;
        else if (integral > I_MAX)
            integral = I_MAX;
#endif
        int32_t out = CONFIG_KP * error + CONFIG_KI * integral;
#if CONFIG_KD > 0
        out += CONFIG_KD * (error - last_error);
        last_error = error;
#endif
        out /= 16;
        if (out < OUT_MIN)
            out = OUT_MIN;
        else if (out > OUT_MAX)
            out = OUT_MAX;
        assert(out >= OUT_MIN && out <= OUT_MAX);
        pwm_set();
    }
}
