package lab;

import java.util.Map;
import java.util.function.BiConsumer;
import java.util.function.BooleanSupplier;
import java.util.stream.Collectors;
import java.util.stream.Stream;

/** An object of JSON, made field by field. */
final class Json {
    private final StringBuilder fields = new StringBuilder();

    Json text(String name, String words) { return field(name, quoted(words)); }
    Json number(String name, long value) { return field(name, String.valueOf(value)); }
    Json truth(String name, boolean value) { return field(name, String.valueOf(value)); }

    Json texts(String name, Stream<String> words) {
        return field(name, words.map(Json::quoted).collect(Collectors.joining(",", "[", "]")));
    }

    /** What a test says: nothing if there is none, and in words what it throws. */
    Json test(String name, BooleanSupplier test) {
        if (test == null) return field(name, "null");
        try {
            return truth(name, test.getAsBoolean());
        } catch (Exception | Error fault) {
            return text(name, Place.words(fault));
        }
    }

    /** The file and the line, if they are known. */
    Json place(StackTraceElement frame) {
        return frame == null ? this : text("file", frame.getFileName()).number("line", frame.getLineNumber());
    }

    <T> Json object(String name, Map<String, T> entries, BiConsumer<Json, Map.Entry<String, T>> tell) {
        Json inner = new Json();
        entries.entrySet().forEach(entry -> tell.accept(inner, entry));
        return field(name, inner.toString());
    }

    @Override public String toString() { return "{" + fields + "}"; }

    private Json field(String name, String json) {
        if (fields.length() > 0) fields.append(',');
        fields.append(quoted(name)).append(':').append(json);
        return this;
    }

    private static String quoted(String words) {
        StringBuilder found = new StringBuilder("\"");
        String.valueOf(words).chars().forEach(mark -> quote(found, (char) mark));
        return found.append('"').toString();
    }

    private static void quote(StringBuilder to, char mark) {
        if (mark < ' ' || Character.isSurrogate(mark)) to.append(String.format("\\u%04x", (int) mark));
        else to.append(mark == '"' || mark == '\\' ? "\\" : "").append(mark);
    }
}
