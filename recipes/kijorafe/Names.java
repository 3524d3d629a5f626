import java.io.ByteArrayInputStream;
import java.io.DataInputStream;
import java.io.IOException;
import java.io.PrintStream;
import java.lang.module.ModuleFinder;
import java.lang.module.ModuleReference;
import java.net.URI;
import java.nio.file.FileSystems;
import java.nio.file.Files;
import java.nio.file.Path;
import java.util.List;
import java.util.TreeSet;
import java.util.stream.Stream;

/**
 * Prints the names of the code of the JDK that runs this, one a line, as recordings have them: classes and packages, with
 * slashes and with dots, and arrays of the classes; methods and fields, and what methods take and return; modules, with
 * their versions and places; class loaders.
 */
class Names {
    /** The names, in order. */
    private final TreeSet<String> found = new TreeSet<>(List.of("bootstrap", "platform", "app"));

    public static void main(String[] words) throws IOException {
        Names names = new Names();
        names.addArrays();
        names.addModules();
        names.addClasses();
        PrintStream out = new PrintStream(System.out, false, "UTF-8");
        names.found.forEach(name -> out.print(name + "\n"));
        out.flush();
        if (out.checkError()) {
            System.exit(4);
        }
    }

    private void addArrays() {
        for (String type : "boolean byte char double float int long short void".split(" ")) {
            found.add(type);
        }
        for (String type : "Z B C D F I J S".split(" ")) {
            found.addAll(List.of("[" + type, "[[" + type, "[[[" + type));
        }
    }

    private void addModules() {
        for (ModuleReference module : ModuleFinder.ofSystem().findAll()) {
            found.add(module.descriptor().name());
            module.descriptor().rawVersion().ifPresent(found::add);
            module.location().ifPresent(place -> found.add(place.toString()));
        }
    }

    private void addClasses() throws IOException {
        Path modules = FileSystems.getFileSystem(URI.create("jrt:/")).getPath("/modules");
        try (Stream<Path> files = Files.walk(modules)) {
            for (Path file : (Iterable<Path>) files::iterator) {
                if (file.toString().endsWith(".class")) {
                    addClass(new DataInputStream(new ByteArrayInputStream(Files.readAllBytes(file))));
                }
            }
        }
    }

    /** Adds the names of a class file. */
    private void addClass(DataInputStream in) throws IOException {
        in.skipBytes(8);
        int count = in.readUnsignedShort();
        String[] texts = new String[count];
        int[] classes = new int[count];
        for (int at = 1; at < count; at++) {
            int kind = in.readUnsignedByte();
            switch (kind) {
                case 1: texts[at] = in.readUTF(); break;
                case 7: classes[at] = in.readUnsignedShort(); break;
                case 8: case 16: case 19: case 20: in.skipBytes(2); break;
                case 15: in.skipBytes(3); break;
                case 5: case 6: in.skipBytes(8); at++; break;
                default: in.skipBytes(4);
            }
        }
        in.skipBytes(2);
        String name = texts[classes[in.readUnsignedShort()]];
        if (name.equals("module-info")) {
            return;
        }
        addBoth(name);
        found.add("[L" + name + ";");
        if (name.contains("/")) {
            addBoth(name.substring(0, name.lastIndexOf('/')));
        }
        in.skipBytes(2);
        in.skipBytes(2 * in.readUnsignedShort());
        addMembers(in, texts, false);
        addMembers(in, texts, true);
    }

    /** Adds the names of the fields or the methods, and what methods take and return. */
    private void addMembers(DataInputStream in, String[] texts, boolean areMethods) throws IOException {
        for (int left = in.readUnsignedShort(); left > 0; left--) {
            in.skipBytes(2);
            found.add(texts[in.readUnsignedShort()]);
            String type = texts[in.readUnsignedShort()];
            if (areMethods || type.startsWith("[")) {
                found.add(type);
            }
            for (int attributes = in.readUnsignedShort(); attributes > 0; attributes--) {
                in.skipBytes(2);
                in.skipBytes(in.readInt());
            }
        }
    }

    private void addBoth(String name) {
        found.add(name);
        found.add(name.replace('/', '.'));
    }
}
