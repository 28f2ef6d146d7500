package lab;

import java.lang.reflect.Field;
import java.lang.reflect.Modifier;
import java.util.Arrays;
import java.util.LinkedHashMap;
import java.util.Locale;
import java.util.Map;
import java.util.concurrent.locks.Lock;
import java.util.function.Supplier;

/** The data that the monitor of a scene guards, by their names. */
final class Data {
    private static final String ADDRESS = "@[0-9a-f]+";
    private final Map<String, Supplier<?>> values = new LinkedHashMap<>();

    void add(String name, Supplier<?> value) { values.put(name, value); }

    /** The fields of the object, and those that it inherits, are data. Its conditions get the names of their fields. */
    void watch(Object object) {
        for (Class<?> type = object.getClass(); type != Object.class; type = type.getSuperclass()) {
            for (Field field : type.getDeclaredFields()) watch(field, object);
        }
    }

    private void watch(Field field, Object object) {
        String name = object.getClass().getSimpleName().toLowerCase(Locale.ROOT) + "." + field.getName();
        if (Modifier.isStatic(field.getModifiers())) {
            if (isConstant(field)) return;
            throw new IllegalArgumentException(name + " is static: it isn't made anew for each run");
        }
        Object value = content(field, object);
        if (value instanceof NamedCondition) ((NamedCondition) value).rename(field.getName());
        else if (!(value instanceof Lock) && !field.isSynthetic()) add(name, () -> content(field, object));
    }

    private static boolean isConstant(Field field) {
        boolean isPlain = field.getType().isPrimitive() || field.getType() == String.class;
        return field.isSynthetic() || (isPlain && Modifier.isFinal(field.getModifiers()));
    }

    private static Object content(Field field, Object of) {
        try {
            field.setAccessible(true);
            return field.get(of);
        } catch (IllegalAccessException fault) {
            throw new IllegalStateException(fault);
        }
    }

    void tell(Json answer) {
        answer.object("data", values, (json, entry) -> json.text(entry.getKey(), words(entry.getValue())));
    }

    /** The value in words, which don't hang on where in memory it is. */
    private static String words(Supplier<?> of) {
        try {
            Object value = of.get();
            boolean isArray = value != null && value.getClass().isArray();
            String all = isArray ? Arrays.deepToString(new Object[] {value}) : String.valueOf(value);
            return (isArray ? all.substring(1, all.length() - 1) : all).replaceAll(ADDRESS, "");
        } catch (RuntimeException | Error fault) {
            return Place.words(fault);
        }
    }
}
