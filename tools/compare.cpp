// Shows what QuantLib answers where docs/COMPARISON.md says what irs answers. Not part of the gate.
//   apt-get install g++ libquantlib0-dev
//   g++ -O2 -std=c++17 tools/compare.cpp -lQuantLib -o compare && ./compare
// With the word `time` it only makes its 1,000 schedules.
#include <cmath>
#include <cstdio>
#include <ctime>
#include <ql/quantlib.hpp>

using namespace QuantLib;

// p / q to the nearest whole number, a half up; q is above 0.
static long long half_up(__int128 p, __int128 q) {
    __int128 n = 2 * p + q, d = 2 * q, whole = n / d;
    return (long long)(n % d < 0 ? whole - 1 : whole);
}

// Coupons of 3, 6 and 12 months from 15 January 2024, each rate from 0.05% to 10% in steps of 0.05%.
static void count_cents(const char *name, const DayCounter &day_count, long year, bool months_of_30, double unit) {
    const ClosestRounding cents(2);
    const Date start(15, January, 2024);
    long all = 0, halves = 0, others = 0, other_halves = 0;
    for (long n = 1; n <= 1000; n++)
        for (long rate = 5; rate <= 1000; rate += 5)
            for (int months : {3, 6, 12}) {
                const Date end = start + months * Months;
                const __int128 days = months_of_30 ? 30 * months : end - start;
                const __int128 over = (__int128)n * (long)unit * rate * days, under = 100 * year;
                const FixedRateCoupon coupon(end, n * unit, rate / 10000.0, day_count, start, end);
                all++;
                const bool half = 2 * (over % under) == under;
                const bool other = llround(cents(coupon.amount()) * 100) != half_up(over, under);
                halves += half;
                others += other;
                other_halves += half && other;
            }
    printf("%-8s 1 to 1,000 times %7.0f: %ld coupons, %ld on half a cent, ", name, unit, all, halves);
    printf("%ld to another cent, %ld of these on half a cent\n", others, other_halves);
}

static void dates(const char *name, const Schedule &schedule) {
    printf("%s:", name);
    for (const Date &date : schedule.dates())
        printf(" %d-%02d-%02d", date.year(), (int)date.month(), date.dayOfMonth());
    puts("");
}

// Half-years from 15 January 2024 on, unadjusted.
static Schedule halves_to(Date last, DateGeneration::Rule rule, bool end_of_month) {
    const NullCalendar all;
    return Schedule(Date(15, January, 2024), last, 6 * Months, all, Unadjusted, Unadjusted, rule, end_of_month);
}

static Schedule adjusted(Date first, Date last, Period every, const Calendar &days, BusinessDayConvention by) {
    return Schedule(first, last, every, days, by, by, DateGeneration::Forward, false);
}

// 1,000 schedules of 240 monthly periods on business days, and the sum of their coupons.
static void take_time() {
    BespokeCalendar days("BULK");
    days.addWeekend(Saturday);
    days.addWeekend(Sunday);
    for (int year = 1949; year <= 2012; year++) {
        days.addHoliday(Date(1, January, year));
        days.addHoliday(Date(25, December, year));
    }
    const BusinessDayConvention by[] = {
        Following, ModifiedFollowing, Preceding, ModifiedPreceding, Nearest, Unadjusted,
    };
    const std::clock_t begun = std::clock();
    double sum = 0;
    for (int k = 1; k <= 1000; k++) {
        const Date first(1 + k % 28, Month(1 + k % 12), 1950 + k / 24);
        const Schedule s = adjusted(first, first + 20 * Years, 1 * Months, days, by[k % 6]);
        const Leg leg = FixedRateLeg(s).withNotionals(1e6 + 1e3 * k).withCouponRates(k / 1e4, Actual360());
        for (const auto &flow : leg)
            sum += flow->amount();
    }
    const double took = 1e3 * double(std::clock() - begun) / CLOCKS_PER_SEC;
    printf("1,000 schedules of 240 periods: %.0f ms of processor time, sum %.2f\n", took, sum);
}

static void show() {
    for (double unit : {1e3, 1e5, 1e6}) {
        count_cents("ACT/360", Actual360(), 360, false, unit);
        count_cents("30/360", Thirty360(Thirty360::BondBasis), 360, true, unit);
        count_cents("ACT/365", Actual365Fixed(), 365, false, unit);
    }
    const Date january(15, January, 2024), year_on(15, January, 2025), five_days_on(20, January, 2025);
    const FixedRateCoupon coupon(year_on, 301000, 0.0015, Actual360(), january, year_on);
    const double cents = ClosestRounding(2)(coupon.amount());
    printf("301,000 at 0.15%% for 366 days of ACT/360: %.17g, to cents %.2f\n", coupon.amount(), cents);
    dates("to 20 January, forward", halves_to(five_days_on, DateGeneration::Forward, false));
    dates("to 20 January, backward", halves_to(five_days_on, DateGeneration::Backward, false));
    dates("third Wednesdays from a 15th", halves_to(year_on, DateGeneration::ThirdWednesday, false));
    dates("ends of months from a 15th", halves_to(year_on, DateGeneration::Forward, true));
    const Date thursday(7, March, 2024), tuesday(12, March, 2024);
    dates("daily over a weekend", adjusted(thursday, tuesday, 1 * Days, TARGET(), Following));
    const bool good = China(China::IB).isBusinessDay(Date(12, February, 2024));
    printf("12 February 2024 is a business day in China: %s\n", good ? "yes" : "no");
    try {
        printf("%d\n", Date(1, January, 2200).year());
    } catch (const std::exception &e) {
        printf("1 January 2200: %s\n", e.what());
    }
}

int main(int words, char **) {
    if (words < 2)
        show();
    take_time();
}
