"""Documents, calendars, fixings and flows of any size, for tools/hostile and tools/bench."""
from datetime import date, timedelta


def adjustments(convention, centers):
    listed = ",".join('"C%d"' % c for c in centers)
    names = ',"businessCenters":{"businessCenter":[%s]}' % listed if centers else ""
    return '{"businessDayConvention":"%s"%s}' % (convention, names)


def steps(first, count, value):
    days = (first + timedelta(days=n + 1) for n in range(count))
    return "".join('{"stepDate":"%s","stepValue":"%s"},' % (d, value) for d in days).rstrip(",")


def stream(periods, count, convention="NONE", centers=(), rate_steps=True):
    """A fixed stream of daily periods with that many steps of notional, and of rate if asked."""
    first = date(2000, 1, 1)
    last = first + timedelta(days=periods)
    moved = adjustments(convention, centers)
    notional = ',"step":[%s]' % steps(first, count, "1000") if count else ""
    rate = ',"step":[%s]' % steps(first, count, "0.05") if count and rate_steps else ""
    return (
        '{"calculationPeriodDates":{"effectiveDate":{"unadjustedDate":"%s","dateAdjustments":%s},'
        '"terminationDate":{"unadjustedDate":"%s","dateAdjustments":%s},'
        '"calculationPeriodDatesAdjustments":%s,'
        '"calculationPeriodFrequency":{"periodMultiplier":"1","period":"D","rollConvention":"NONE"}},'
        '"paymentDates":{"paymentFrequency":{"periodMultiplier":"1","period":"D"},'
        '"payRelativeTo":"CalculationPeriodEndDate","paymentDatesAdjustments":%s},'
        '"calculationPeriodAmount":{"calculation":{"notionalSchedule":{"notionalStepSchedule":'
        '{"initialValue":"1000"%s,"currency":"USD"}},"fixedRateSchedule":{"initialValue":"0.05"%s},'
        '"dayCountFraction":"ACT/360"}}}'
    ) % (first, moved, last, moved, moved, moved, notional, rate)


def swap(streams):
    return '{"swap":{"swapStream":[%s]}}' % ",".join(streams)


def parties(one, document):
    """The stream with a payer and a receiver, which `net` asks for."""
    references = '{"payerPartyReference":{"@href":"p%d"},"receiverPartyReference":{"@href":"p%d"},'
    return references % (one, 3 - one) + document[1:]


def derived(years, center):
    """A floating stream of one period of that many years, whose fixings are derived from others."""
    moved = adjustments("FOLLOWING", [center])
    none = adjustments("NONE", [])
    return (
        '{"calculationPeriodDates":{"@id":"c","effectiveDate":{"unadjustedDate":"2000-01-03","dateAdjustments":%s},'
        '"terminationDate":{"unadjustedDate":"%d-01-03","dateAdjustments":%s},'
        '"calculationPeriodDatesAdjustments":%s,'
        '"calculationPeriodFrequency":{"periodMultiplier":"1","period":"T","rollConvention":"NONE"}},'
        '"paymentDates":{"paymentFrequency":{"periodMultiplier":"1","period":"T"},'
        '"payRelativeTo":"CalculationPeriodEndDate","paymentDatesAdjustments":%s},'
        '"resetDates":{"@id":"r","calculationPeriodDatesReference":{"@href":"c"},'
        '"resetRelativeTo":"CalculationPeriodStartDate","resetFrequency":{"periodMultiplier":"1","period":"T"},'
        '"resetDatesAdjustments":%s},'
        '"calculationPeriodAmount":{"calculation":{"notionalSchedule":{"notionalStepSchedule":'
        '{"initialValue":"1000","currency":"USD"}},"floatingRateCalculation":{"floatingRateIndex":"USD-TEST-INDEX",'
        '"indexTenor":{"periodMultiplier":"3","period":"M"}},"dayCountFraction":"ACT/360"}}}'
    ) % (none, 2000 + years, none, none, none, moved)


def observed(periods, days, center, first=date(1901, 1, 7)):
    """A floating stream of periods of that many days, whose rates are compounded from daily ones in the terms."""
    none = adjustments("NONE", [])
    last = first + timedelta(days=periods * days)
    return (
        '{"calculationPeriodDates":{"effectiveDate":{"unadjustedDate":"%s","dateAdjustments":%s},'
        '"terminationDate":{"unadjustedDate":"%s","dateAdjustments":%s},'
        '"calculationPeriodDatesAdjustments":%s,'
        '"calculationPeriodFrequency":{"periodMultiplier":"%d","period":"D","rollConvention":"NONE"}},'
        '"paymentDates":{"paymentFrequency":{"periodMultiplier":"%d","period":"D"},'
        '"payRelativeTo":"CalculationPeriodEndDate","paymentDatesAdjustments":%s},'
        '"resetDates":{"resetFrequency":{"periodMultiplier":"1","period":"D"}},'
        '"calculationPeriodAmount":{"calculation":{"notionalSchedule":{"notionalStepSchedule":'
        '{"initialValue":"1000","currency":"USD"}},"floatingRateCalculation":{"floatingRateIndex":"USD-TEST-INDEX",'
        '"calculationParameters":{"calculationMethod":"Compounding",'
        '"applicableBusinessDays":{"businessCenter":"C%d"}}},'
        '"dayCountFraction":"ACT/360"}}}'
    ) % (first, none, last, none, none, days, days, none, center)


def weekday_fixings(days, first=date(1901, 1, 7)):
    """A daily rate for each weekday of that many days."""
    all_days = (first + timedelta(days=n) for n in range(days))
    return "".join("%s 0.03 1D USD-TEST-INDEX\n" % day for day in all_days if day.weekday() < 5)


def calendar(name, holidays, first=1901, last=2299, apart=5):
    """A calendar that covers these years: `holidays` of them, each `apart` days after the one before."""
    start = date(first, 1, 1)
    days = "".join("%s\n" % (start + timedelta(days=apart * n)) for n in range(holidays))
    return "center %s\ncover %d-01-01 %d-12-31\nweekend SAT SUN\n%s" % (name, first, last, days)


def fixings(lines, tenor="3M", first=date(1950, 1, 1)):
    return "".join("%s 0.03 %s USD-TEST-INDEX\n" % (first + timedelta(days=n), tenor) for n in range(lines))


def flows(rows):
    payment = '{"adjustedPaymentDate":"2024-07-15","calculationPeriod":{"adjustedStartDate":"2024-01-15"}}'
    one = '{"cashflows":{"paymentCalculationPeriod":[%s]}}' % ",".join([payment] * rows)
    return '{"swap":{"swapStream":[%s]}}' % ",".join([one] * 8)
