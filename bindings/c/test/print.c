#include "print.h"

#include <inttypes.h>
#include <stdio.h>

#define NAME(constant, name) case constant: return name

void put(struct printed *to, const void *bytes, size_t size)
{
    if (size > sizeof to->bytes - to->size)
        size = sizeof to->bytes - to->size;
    if (size != 0)
        memcpy(to->bytes + to->size, bytes, size);
    to->size += size;
}

void put_word(struct printed *to, const char *word) { put(to, word, strlen(word)); }

void put_number(struct printed *to, uint64_t number)
{
    char digits[24];
    sprintf(digits, "%" PRIu64, number);
    put_word(to, digits);
}

void put_hex(struct printed *to, const uint8_t *bytes, size_t size)
{
    static const char digits[] = "0123456789abcdef";
    for (; size != 0; bytes++, size--) {
        put(to, digits + *bytes / 16, 1);
        put(to, digits + *bytes % 16, 1);
    }
}

static void put_next(struct printed *to, uint64_t number)
{
    put_word(to, " ");
    put_number(to, number);
}

static void put_if(struct printed *to, unsigned there, uint64_t number)
{
    if (there == 1)
        put_next(to, number);
    else
        put_word(to, there == 0 && number == 0 ? " none" : " ?");
}

static void put_float(struct printed *to, float number)
{
    char digits[16];
    uint32_t bits;
    memcpy(&bits, &number, sizeof bits);
    sprintf(digits, " %08" PRIx32, bits);
    put_word(to, digits);
}

static void put_float_if(struct printed *to, unsigned there, float number)
{
    if (there == 1)
        put_float(to, number);
    else
        put_if(to, there, number != 0);
}

static void put_text(struct printed *to, sim7000_text text)
{
    put_word(to, " \"");
    put(to, text.bytes, text.size);
    put_word(to, "\"");
}

/* ---- the names, as the published program has them */

static const char *system_mode(sim7000_system_mode mode)
{
    switch (mode) {
        NAME(SIM7000_SYSTEM_NO_SERVICE, " NoService");
        NAME(SIM7000_SYSTEM_GSM, " Gsm");
        NAME(SIM7000_SYSTEM_LTE_CAT_M1, " LteCatM1");
        NAME(SIM7000_SYSTEM_LTE_NB_IOT, " LteNbIot");
    default: return " ?";
    }
}

static const char *operation_mode(sim7000_operation_mode mode)
{
    switch (mode) {
        NAME(SIM7000_OPERATION_ONLINE, " Online");
        NAME(SIM7000_OPERATION_OFFLINE, " Offline");
        NAME(SIM7000_OPERATION_FACTORY_TEST, " FactoryTest");
        NAME(SIM7000_OPERATION_RESET, " Reset");
        NAME(SIM7000_OPERATION_LOW_POWER, " LowPower");
    default: return " ?";
    }
}

static const char *operator_mode(sim7000_operator_mode mode)
{
    switch (mode) {
        NAME(SIM7000_OPERATOR_AUTOMATIC, " Automatic");
        NAME(SIM7000_OPERATOR_MANUAL, " Manual");
        NAME(SIM7000_OPERATOR_MANUAL_DEREGISTER, " ManualDeregister");
        NAME(SIM7000_OPERATOR_MANUAL_AUTOMATIC, " ManualAutomatic");
    default: return " ?";
    }
}

static const char *operator_format(sim7000_operator_format format)
{
    switch (format) {
        NAME(SIM7000_FORMAT_LONG, " Long");
        NAME(SIM7000_FORMAT_SHORT, " Short");
        NAME(SIM7000_FORMAT_NUMERIC, " Numeric");
    default: return " ?";
    }
}

static const char *ntp_code(sim7000_ntp_code code)
{
    switch (code) {
        NAME(SIM7000_NTP_SUCCESS, " Success");
        NAME(SIM7000_NTP_NETWORK_ERROR, " NetworkError");
        NAME(SIM7000_NTP_DNS_RESOLUTION_ERROR, " DnsResolutionError");
        NAME(SIM7000_NTP_CONNECTION_ERROR, " ConnectionError");
        NAME(SIM7000_NTP_SERVICE_RESPONSE_ERROR, " ServiceResponseError");
        NAME(SIM7000_NTP_SERVICE_RESPONSE_TIMEOUT, " ServiceResponseTimeout");
    default: return " ?";
    }
}

static const char *http_code(sim7000_http_code code)
{
    switch (code) {
        NAME(SIM7000_HTTP_OTHER_ERRORS, " OtherErrors");
        NAME(SIM7000_HTTP_CONTINUE, " Continue");
        NAME(SIM7000_HTTP_OK, " Ok");
        NAME(SIM7000_HTTP_PARTIAL_CONTENT, " PartialContent");
        NAME(SIM7000_HTTP_BAD_REQUEST, " BadRequest");
        NAME(SIM7000_HTTP_NOT_FOUND, " NotFound");
        NAME(SIM7000_HTTP_REQUEST_TIMEOUT, " RequestTimeout");
        NAME(SIM7000_HTTP_INTERNAL_SERVER_ERROR, " InternalServerError");
        NAME(SIM7000_HTTP_NOT_HTTP_PDU, " NotHttpPdu");
        NAME(SIM7000_HTTP_NETWORK_ERROR, " NetworkError");
        NAME(SIM7000_HTTP_NO_MEMORY, " NoMemory");
        NAME(SIM7000_HTTP_DNS_ERROR, " DnsError");
        NAME(SIM7000_HTTP_STACK_BUSY, " StackBusy");
        NAME(SIM7000_HTTP_SSL_CONTINUE, " SslContinue");
    default: return " ?";
    }
}

static const char *registration_status(sim7000_registration_status status)
{
    switch (status) {
        NAME(SIM7000_REGISTRATION_NOT_REGISTERED, " NotRegistered");
        NAME(SIM7000_REGISTRATION_REGISTERED_HOME, " RegisteredHome");
        NAME(SIM7000_REGISTRATION_SEARCHING, " Searching");
        NAME(SIM7000_REGISTRATION_DENIED, " RegistrationDenied");
        NAME(SIM7000_REGISTRATION_UNKNOWN, " Unknown");
        NAME(SIM7000_REGISTRATION_REGISTERED_ROAMING, " RegisteredRoaming");
    default: return " ?";
    }
}

static const char *sms_message_format(sim7000_sms_message_format format)
{
    switch (format) {
        NAME(SIM7000_SMS_PDU, " Pdu");
        NAME(SIM7000_SMS_TEXT, " Text");
    default: return " ?";
    }
}

static const char *event_word(sim7000_event event)
{
    switch (event) {
        NAME(SIM7000_UNSOLICITED, "unsolicited");
        NAME(SIM7000_TAKEN, "taken");
        NAME(SIM7000_DONE, "done");
        NAME(SIM7000_SHORT, "short");
        NAME(SIM7000_FAILED, "failed");
        NAME(SIM7000_STRAY, "stray");
        NAME(SIM7000_OVERLONG, "overlong");
        NAME(SIM7000_ECHO, "echo");
    default: return "?";
    }
}

unsigned refusal_number(sim7000_refusal refusal)
{
    switch (refusal) {
        NAME(SIM7000_NO_REFUSAL, 0);
        NAME(SIM7000_LINE_TOO_LONG, 1);
        NAME(SIM7000_LINE_NOT_UTF8, 2);
        NAME(SIM7000_NOT_ACCEPTED, 3);
        NAME(SIM7000_TEXT_IN_LINE_LONG, 4);
        NAME(SIM7000_TEXT_TOO_LONG, 5);
        NAME(SIM7000_TEXT_NOT_PLAIN, 6);
        NAME(SIM7000_OUT_TOO_SHORT, 7);
        NAME(SIM7000_COMMAND_OPEN, 8);
        NAME(SIM7000_LINE_UNFINISHED, 9);
        NAME(SIM7000_TEXT_BUFFER_SHORT, 10);
        NAME(SIM7000_NOT_OPERATOR_NUMBER, 12);
        NAME(SIM7000_NO_SUCH_DATE, 13);
    default: return 99;
    }
}

/* ---- the readers */

static void put_error(struct printed *to, sim7000_sim_error error)
{
    switch (error.kind) {
    case SIM7000_ERROR_GENERIC: put_word(to, error.code == 0 ? "SimError Generic" : "?"); break;
    case SIM7000_ERROR_CME: put_word(to, "SimError CmeErr"), put_next(to, error.code); break;
    case SIM7000_ERROR_CMS: put_word(to, "SimError CmsErr"), put_next(to, error.code); break;
    default: put_word(to, "?");
    }
}

static void put_iccid(struct printed *to, sim7000_iccid iccid)
{
    put_word(to, "Iccid");
    put_next(to, iccid.country);
    put_next(to, iccid.issuer);
    put_next(to, iccid.account);
}

static void put_signal(struct printed *to, sim7000_signal_quality quality)
{
    put_word(to, "SignalQuality");
    put_float_if(to, quality.has_signal_strength, quality.signal_strength);
    put_float_if(to, quality.has_signal_quality, quality.signal_quality);
}

static void put_operator(struct printed *to, sim7000_operator_info info)
{
    put_word(to, "OperatorInfo");
    put_word(to, operator_mode(info.mode));
    put_word(to, operator_format(info.format));
    put_text(to, info.operator_name);
}

static void put_time(struct printed *to, sim7000_network_time time)
{
    put_word(to, "NetworkTime");
    put_word(to, ntp_code(time.code));
    if (time.has_time == 1)
        put_text(to, time.time);
    else
        put_if(to, time.has_time, time.time.size);
}

static void put_fix(struct printed *to, const sim7000_gnss_fix *fix)
{
    put_next(to, fix->date_time.year);
    put_next(to, fix->date_time.month);
    put_next(to, fix->date_time.day);
    put_next(to, fix->date_time.hour);
    put_next(to, fix->date_time.minute);
    put_next(to, fix->date_time.second);
    put_float(to, fix->latitude);
    put_float(to, fix->longitude);
    put_float(to, fix->altitude);
    put_float(to, fix->hdop);
    put_float(to, fix->pdop);
    put_float(to, fix->vdop);
    put_float(to, fix->speed_over_ground);
    put_float(to, fix->course_over_ground);
    put_next(to, fix->sat_gps_in_view);
    put_next(to, fix->sat_gnss_used);
    put_next(to, fix->sat_glonass_used);
    put_next(to, fix->signal_noise_ratio);
}

/* A fix in a report without one says nothing, and neither do satellites in view with one. */
static void put_gnss(struct printed *to, sim7000_gnss_report report)
{
    static const char nothing[] = " 0 0 0 0 0 0 00000000 00000000 00000000 00000000 00000000 00000000 00000000 00000000 0 0 0 0";
    struct printed fix = {{0}, 0};
    put_fix(&fix, &report.fix);
    if (report.status != SIM7000_GNSS_FIX && (fix.size != sizeof nothing - 1 || memcmp(fix.bytes, nothing, fix.size) != 0))
        put_word(to, "? ");
    if (report.status != SIM7000_GNSS_NO_FIX && (report.has_sat_gps_view != 0 || report.sat_gps_view != 0))
        put_word(to, "? ");
    switch (report.status) {
    case SIM7000_GNSS_NOT_ENABLED: put_word(to, "GnssReport NotEnabled"); break;
    case SIM7000_GNSS_NO_FIX: put_word(to, "GnssReport NoFix"), put_if(to, report.has_sat_gps_view, report.sat_gps_view); break;
    case SIM7000_GNSS_FIX: put_word(to, "GnssReport Fix"), put(to, fix.bytes, fix.size); break;
    default: put_word(to, "?");
    }
}

static void put_registration(struct printed *to, sim7000_network_registration registration)
{
    put_word(to, "NetworkRegistration");
    put_word(to, registration_status(registration.status));
    put_if(to, registration.has_lac, registration.lac);
    put_if(to, registration.has_ci, registration.ci);
}

void put_as(struct printed *to, sim7000_reader reader, const sim7000_line *line)
{
    switch (reader) {
    case SIM7000_GENERIC_OK: put_word(to, "GenericOk"); break;
    case SIM7000_SIM_ERROR: put_error(to, sim7000_as_sim_error(line)); break;
    case SIM7000_WRITE_PROMPT: put_word(to, "WritePrompt"); break;
    case SIM7000_CLOSE_OK: put_word(to, "CloseOk"), put_next(to, sim7000_as_close_ok(line).connection); break;
    case SIM7000_ICCID: put_iccid(to, sim7000_as_iccid(line)); break;
    case SIM7000_SIGNAL_QUALITY: put_signal(to, sim7000_as_signal_quality(line)); break;
    case SIM7000_SYSTEM_INFO:
        put_word(to, "SystemInfo");
        put_word(to, system_mode(sim7000_as_system_info(line).system_mode));
        put_word(to, operation_mode(sim7000_as_system_info(line).operation_mode));
        break;
    case SIM7000_OPERATOR_INFO: put_operator(to, sim7000_as_operator_info(line)); break;
    case SIM7000_NETWORK_TIME: put_time(to, sim7000_as_network_time(line)); break;
    case SIM7000_DOWNLOAD_INFO:
        put_word(to, "DownloadInfo");
        put_word(to, http_code(sim7000_as_download_info(line).status_code));
        put_next(to, sim7000_as_download_info(line).data_length);
        break;
    case SIM7000_IMEI:
        put_word(to, sim7000_as_imei(line).is_version_number == 1 ? "Imei version" : "Imei");
        put_text(to, sim7000_as_imei(line).imei);
        break;
    case SIM7000_SMS_MESSAGE_FORMAT: put_word(to, "SmsMessageFormat"), put_word(to, sms_message_format(sim7000_as_sms_message_format(line))); break;
    case SIM7000_SMS_MESSAGE: put_word(to, "SmsMessage"), put_text(to, sim7000_as_sms_message(line).sender); break;
    case SIM7000_GNSS_REPORT: put_gnss(to, sim7000_as_gnss_report(line)); break;
    case SIM7000_NETWORK_REGISTRATION: put_registration(to, sim7000_as_network_registration(line)); break;
    default: put_word(to, "?");
    }
}

void put_line(struct printed *to, const sim7000_line *line) { put_as(to, line->reader, line); }

void put_refused(struct printed *to, sim7000_refusal refusal)
{
    put_word(to, "refused");
    put_next(to, refusal_number(refusal));
}

void put_event(struct printed *to, const sim7000_heard *heard)
{
    put_word(to, event_word(heard->event));
    put_next(to, heard->ordinal);
    if (heard->event == SIM7000_STRAY)
        put_next(to, refusal_number(heard->stray));
    else if (heard->stray != SIM7000_NO_REFUSAL)
        put_word(to, " ?");
}

void put_heard(struct printed *to, const sim7000_heard *heard, const uint8_t *text)
{
    put_event(to, heard);
    if (heard->event != SIM7000_OVERLONG) {
        put_word(to, " ");
        put(to, text, heard->size);
    }
    put_word(to, "\n");
}
