package lab;

import java.io.IOException;
import java.nio.file.Files;
import java.nio.file.Path;

/** Loads the classes of a student and a teacher, in which the lab's calls stand in place of Java's own monitor. */
final class Loader extends ClassLoader {
    private static final String LAB = Loader.class.getPackageName() + ".";
    private final Path folder;
    private final Rewriting rewriting = Rewriting.known();

    Loader(Path folder) { this.folder = folder; }

    @Override protected Class<?> loadClass(String name, boolean isResolved) throws ClassNotFoundException {
        synchronized (getClassLoadingLock(name)) {
            Class<?> loaded = findLoadedClass(name);
            if (loaded != null) return loaded;
            Path file = folder.resolve(name.replace('.', '/') + ".class");
            if (name.startsWith(LAB) || !Files.exists(file)) return super.loadClass(name, isResolved);
            byte[] code = rewriting.rewritten(read(file));
            return defineClass(name, code, 0, code.length);
        }
    }

    private static byte[] read(Path file) throws ClassNotFoundException {
        try {
            return Files.readAllBytes(file);
        } catch (IOException fault) {
            throw new ClassNotFoundException(file.toString(), fault);
        }
    }
}
