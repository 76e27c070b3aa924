package emfstore.client;

import java.math.BigDecimal;
import java.util.ArrayList;
import java.util.LinkedHashMap;
import java.util.List;
import java.util.Map;
import java.util.stream.Collectors;

/** JSON texts: what the program prints, read; and strings as it writes them. */
final class Json {
    private final String text;
    private int at;

    private Json(String text) {
        this.text = text;
    }

    /**
     * The value of a text: a map, a list, a string, a {@link BigDecimal}, a boolean or null.
     *
     * @throws IllegalArgumentException where the text is no JSON value
     */
    static Object read(String text) {
        Json json = new Json(text);
        Object value = json.value();
        json.space();
        if (json.at != text.length()) {
            throw json.fault();
        }
        return value;
    }

    /** A string in quotes, escaped as the program's own texts are. */
    static String quote(String string) {
        StringBuilder out = new StringBuilder(string.length() + 2).append('"');
        int plain = 0;
        for (int i = 0; i < string.length(); i++) {
            String escaped = escaped(string, i);
            if (escaped != null) {
                out.append(string, plain, i).append(escaped);
                plain = i + 1;
            }
        }
        return out.append(string, plain, string.length()).append('"').toString();
    }

    /** What stands for a character of a string, or null where it stands for itself. */
    private static String escaped(String string, int i) {
        char c = string.charAt(i);
        return switch (c) {
            case '"' -> "\\\"";
            case '\\' -> "\\\\";
            case '\b' -> "\\b";
            case '\f' -> "\\f";
            case '\n' -> "\\n";
            case '\r' -> "\\r";
            case '\t' -> "\\t";
            default -> c < ' ' || Character.isSurrogate(c) && isAlone(string, i) ? String.format("\\u%04x", (int) c) : null;
        };
    }

    /** A value that {@link #read} gave, as a text without spaces. */
    static String write(Object value) {
        if (value instanceof Map<?, ?> map) {
            return map.entrySet().stream().map(it -> quote((String) it.getKey()) + ":" + write(it.getValue()))
                    .collect(Collectors.joining(",", "{", "}"));
        }
        if (value instanceof List<?> list) {
            return list.stream().map(Json::write).collect(Collectors.joining(",", "[", "]"));
        }
        return value instanceof String text ? quote(text) : value instanceof BigDecimal number ? number.toPlainString() : String.valueOf(value);
    }

    /** Whether a surrogate stands there without its other half, so that it has no UTF-8. */
    private static boolean isAlone(String string, int i) {
        char c = string.charAt(i);
        if (Character.isHighSurrogate(c)) {
            return i + 1 == string.length() || !Character.isLowSurrogate(string.charAt(i + 1));
        }
        return Character.isLowSurrogate(c) && (i == 0 || !Character.isHighSurrogate(string.charAt(i - 1)));
    }

    private Object value() {
        space();
        return switch (peek()) {
            case '{' -> object();
            case '[' -> array();
            case '"' -> string();
            case 't' -> word("true", true);
            case 'f' -> word("false", false);
            case 'n' -> word("null", null);
            default -> number();
        };
    }

    private Map<String, Object> object() {
        Map<String, Object> found = new LinkedHashMap<>();
        at++;
        for (space(); peek() != '}'; space()) {
            String key = string();
            space();
            take(':');
            found.put(key, value());
            separator('}');
        }
        at++;
        return found;
    }

    private List<Object> array() {
        List<Object> found = new ArrayList<>();
        at++;
        for (space(); peek() != ']'; space()) {
            found.add(value());
            separator(']');
        }
        at++;
        return found;
    }

    private String string() {
        take('"');
        StringBuilder out = new StringBuilder();
        int plain = at;
        for (char c = next(); c != '"'; c = next()) {
            if (c == '\\') {
                out.append(text, plain, at - 1).append(escaped());
                plain = at;
            }
        }
        return out.append(text, plain, at - 1).toString();
    }

    private char escaped() {
        char c = next();
        return switch (c) {
            case 'b' -> '\b';
            case 'f' -> '\f';
            case 'n' -> '\n';
            case 'r' -> '\r';
            case 't' -> '\t';
            case 'u' -> (char) Integer.parseInt("" + next() + next() + next() + next(), 16);
            default -> c;
        };
    }

    private BigDecimal number() {
        int start = at;
        while (at < text.length() && "+-.eE0123456789".indexOf(text.charAt(at)) >= 0) {
            at++;
        }
        if (start == at) {
            throw fault();
        }
        return new BigDecimal(text.substring(start, at));
    }

    private Object word(String word, Object value) {
        if (!text.startsWith(word, at)) {
            throw fault();
        }
        at += word.length();
        return value;
    }

    private void separator(char end) {
        space();
        if (peek() != end) {
            take(',');
            space();
            if (peek() == end) {
                throw fault();
            }
        }
    }

    private void space() {
        while (at < text.length() && " \t\r\n".indexOf(text.charAt(at)) >= 0) {
            at++;
        }
    }

    private char peek() {
        return at < text.length() ? text.charAt(at) : '\0';
    }

    private char next() {
        if (at == text.length()) {
            throw fault();
        }
        return text.charAt(at++);
    }

    private void take(char wanted) {
        if (next() != wanted) {
            throw fault();
        }
    }

    private IllegalArgumentException fault() {
        return new IllegalArgumentException("no JSON at character " + at);
    }
}
