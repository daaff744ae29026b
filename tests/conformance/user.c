/* A program as a user would write it, in what all standards from C99 and C++98 on have in common: each function that
 * the header defines, and a session by value and by pointer. It prints nothing, and its exit status is 0 if every value
 * is the known one. */
#include <hollytrot.h>

static const char typed[] = "81770000000-0 01093659970-2 41131079703-9 00143370831-9";

/* Whether the text is refused as it is shown to a person: at the last place, in words. */
static bool typed_line_is_refused(void)
{
    const size_t length = sizeof typed - 1;
    const hollytrot_typed line = hollytrot_digits(typed, length);
    const hollytrot_decoded decoded = hollytrot_line_decode(line.digits, line.length, NULL, 0);
    const char *english = hollytrot_reason(decoded.answer.number);
    const char *portuguese = hollytrot_reason_pt(decoded.answer.number);
    return line.count == HOLLYTROT_LINE && decoded.answer.number == HOLLYTROT_WRONG_BOX_CHECK &&
           hollytrot_place_typed(typed, length, decoded.answer.place) == length && english[0] == 't' &&
           portuguese[0] == 'o' && !hollytrot_is_money(decoded.fields) && hollytrot_is_separator(typed[13]);
}

static bool issuer_is_shown(void)
{
    char text[HOLLYTROT_ISSUER_TEXT];
    hollytrot_issuer issuer;
    issuer.segment = 6;
    issuer.number = 33041260;
    return hollytrot_issuer_text(issuer, text)[9] == '0' && text[10] == '\0' &&
           hollytrot_issuer_key(issuer) == 633041260;
}

static bool nothing_is_taken(void)
{
    hollytrot_session session = hollytrot_session_new();
    const hollytrot_feed_result fed = hollytrot_session_feed(&session, NULL, 0, false, NULL, 0);
    const hollytrot_take_result taken = hollytrot_session_take(session, NULL, 0, NULL, 0);
    return fed.answer.number == HOLLYTROT_ACCEPTED && fed.records == 0 && fed.files == 0 && fed.bytes == 0 &&
           taken.answer.number == HOLLYTROT_WRONG_LENGTH && !taken.session.opened;
}

int main(void)
{
    return hollytrot_check_version() && typed_line_is_refused() && issuer_is_shown() && nothing_is_taken() ? 0 : 1;
}
