// Plants strings wherever a recording may hold a secret. secrets.sh starts it, and has the list of the strings:
// each begins with xq and ends with qx. With the word `settings` it writes a configuration that turns every type
// of event on, and ends.
import com.sun.management.HotSpotDiagnosticMXBean;
import java.io.*;
import java.lang.annotation.*;
import java.lang.management.ManagementFactory;
import java.net.*;
import java.nio.ByteBuffer;
import java.nio.channels.FileChannel;
import java.nio.file.*;
import java.security.*;
import java.util.*;
import java.util.concurrent.locks.LockSupport;
import javax.net.ssl.*;
import jdk.jfr.*;

public class Secrets {
    static final List<Object> kept = new ArrayList<>();

    public static void main(String[] words) throws Exception {
        for (var type : List.of(OwnEvent.class, JdkEvent.class, SameEvent.class)) FlightRecorder.register(type);
        Path folder = Path.of(words[1]);
        if (words[0].equals("settings")) {
            settings(folder);
            return;
        }
        files(folder);
        sockets();
        handshake(folder);
        processes(folder);
        messages();
        security();
        sameName();
        code(folder);
        flags(folder);
        System.load(folder.resolve("xqnativelibraryqx.so").toString());
        threads();
    }

    // Every type of event on, without a threshold and with its stack, and the rest as it is by default.
    static void settings(Path file) throws IOException {
        var text = new StringBuilder("<?xml version=\"1.0\" encoding=\"UTF-8\"?>\n<configuration version=\"2.0\">\n");
        for (EventType type : FlightRecorder.getFlightRecorder().getEventTypes()) {
            text.append("<event name=\"" + type.getName() + "\">\n");
            for (SettingDescriptor setting : type.getSettingDescriptors()) {
                boolean samples = type.getName().endsWith("MethodSample") || type.getName().endsWith("ExecutionSample");
                String value = switch (setting.getName()) {
                    case "enabled", "stackTrace" -> "true";
                    case "threshold" -> "0 ns";
                    case "cutoff" -> "infinity";
                    case "period" -> samples ? "10 ms" : setting.getDefaultValue();
                    case "filter" -> "Work::xqmethodqx";
                    case "xqsettingnameqx" -> "xqsettingvalueqx";
                    default -> setting.getDefaultValue();
                };
                text.append("<setting name=\"" + setting.getName() + "\">" + value + "</setting>\n");
            }
            text.append("</event>\n");
        }
        Files.writeString(file, text.append("</configuration>\n"));
    }

    static void files(Path folder) throws IOException {
        Path read = folder.resolve("xqfilereadqx");
        Files.writeString(read, "text");
        try (var in = new FileInputStream(read.toFile())) {
            in.read();
        }
        try (var out = new FileOutputStream(folder.resolve("xqfilewriteqx").toFile())) {
            out.write(1);
        }
        try (var channel = FileChannel.open(folder.resolve("xqfileforceqx"), StandardOpenOption.CREATE, StandardOpenOption.WRITE)) {
            channel.write(ByteBuffer.allocate(10));
            channel.force(true);
        }
    }

    // A connection to this machine, whose host has a planted name and an address of its own.
    static void sockets() throws Exception {
        var address = InetAddress.getByAddress("xqhostqx", new byte[] {127, 77, 66, 55});
        try (var server = new ServerSocket(0, 1, address)) {
            var answer = new Thread(() -> {
                try (var socket = server.accept()) {
                    socket.getOutputStream().write(socket.getInputStream().read());
                } catch (IOException e) {
                    throw new UncheckedIOException(e);
                }
            });
            answer.start();
            try (var socket = new Socket()) {
                socket.connect(new InetSocketAddress(address, server.getLocalPort()));
                socket.getOutputStream().write(7);
                socket.getInputStream().read();
            }
            answer.join();
        }
    }

    static void handshake(Path folder) throws Exception {
        char[] password = "xqstorepasswordqx".toCharArray();
        var store = KeyStore.getInstance(folder.resolve("keys.p12").toFile(), password);
        var keys = KeyManagerFactory.getInstance(KeyManagerFactory.getDefaultAlgorithm());
        keys.init(store, password);
        var trust = TrustManagerFactory.getInstance(TrustManagerFactory.getDefaultAlgorithm());
        trust.init(store);
        var context = SSLContext.getInstance("TLS");
        context.init(keys.getKeyManagers(), trust.getTrustManagers(), null);
        try (var server = context.getServerSocketFactory().createServerSocket(0, 1, InetAddress.getLoopbackAddress())) {
            var answer = new Thread(() -> {
                try (var socket = server.accept()) {
                    socket.getOutputStream().write(socket.getInputStream().read());
                } catch (IOException e) {
                    throw new UncheckedIOException(e);
                }
            });
            answer.start();
            var plain = new Socket(InetAddress.getLoopbackAddress(), server.getLocalPort());
            try (var socket = context.getSocketFactory().createSocket(plain, "xqtlshostqx", server.getLocalPort(), true)) {
                socket.getOutputStream().write(7);
                socket.getInputStream().read();
            }
            answer.join();
        }
    }

    // One process that ends at once, and one that is there when the recording lists the processes of the machine.
    static void processes(Path folder) throws Exception {
        Path there = Files.createDirectories(folder.resolve("xqprocessfolderqx"));
        new ProcessBuilder("true", "xqprocessargumentqx").directory(there.toFile()).start().waitFor();
        kept.add(new ProcessBuilder("sh", "-c", "read line", "xqotherprocessqx").start());
    }

    static void messages() throws Exception {
        try {
            throw new IllegalStateException("xqexceptionqx");
        } catch (IllegalStateException e) {
            // Only thrown to be recorded.
        }
        try {
            throw new Error("xqerrorqx");
        } catch (Error e) {
            // Only thrown to be recorded.
        }
        var bytes = new ByteArrayOutputStream();
        try (var out = new ObjectOutputStream(bytes)) {
            out.writeObject(new Date());
        }
        try (var in = new ObjectInputStream(new ByteArrayInputStream(bytes.toByteArray()))) {
            in.setObjectInputFilter(info -> { throw new IllegalArgumentException("xqfilterqx"); });
            in.readObject();
        } catch (InvalidClassException e) {
            // The filter refuses it.
        }
    }

    static void security() throws Exception {
        Security.setProperty("xqsecuritynameqx", "xqsecurityvalueqx");
        Security.addProvider(new OwnProvider());
        MessageDigest.getInstance("xqalgorithmqx");
        Security.getProperty("networkaddress.cache.ttl");
    }

    // From this thread, since every recipe that keeps the event keeps its thread and stack.
    static void sameName() {
        var same = new SameEvent();
        same.text = "xqsamevalueqx";
        same.commit();
    }

    // A class of a module, and one with a finalizer from a folder and by a loader of their own names.
    static void code(Path folder) throws Exception {
        Class.forName("xqpackageqx.InModule").getMethod("call").invoke(null);
        var urls = new URL[] {folder.resolve("xqcodesourceqx/").toUri().toURL()};
        var loader = new URLClassLoader("xqloaderqx", urls, null);
        kept.add(loader.loadClass("xqfinalizedqx").getDeclaredConstructor().newInstance());
    }

    static void flags(Path folder) throws Exception {
        var bean = ManagementFactory.getPlatformMXBean(HotSpotDiagnosticMXBean.class);
        bean.setVMOption("HeapDumpPath", folder.resolve("xqflagchangedqx").toString());
        bean.dumpHeap(folder.resolve("xqheapdumpqx.hprof").toString(), true);
    }

    // Threads whose names hold an address and a request, and threads of a tenant, which own and wait for a lock, notify and start others, burn time, allocate and ask for
    // a collection; one more thread meets them at the lock.
    static void threads() throws Exception {
        var group = new ThreadGroup("xqgroupqx");
        var other = new Thread(group, new Work(0), "xqthreadqx");
        var first = new Thread(group, new Work(1), "xqtenantqx-1");
        var second = new Thread(group, new Work(2), "xqtenantqx-2");
        var address = new Thread(group, new Work(3), "RMI TCP Connection(7)-127.66.55.44");
        var request = new Thread(group, new Work(4), "http GET /orders?token=xqtokenqx 245");
        var all = List.of(other, first, second, address, request);
        for (var thread : all) thread.start();
        for (var thread : all) thread.join();
    }
}

class Work implements Runnable {
    static final Object lock = new Object();
    static volatile double sum;
    static final List<Object> kept = Collections.synchronizedList(new ArrayList<>());
    final int number;

    Work(int number) {
        this.number = number;
    }

    public void run() {
        try {
            for (int turn = 0; turn < 20; turn++) xqmethodqx(turn);
            if (number == 1) {
                System.gc();
                var child = new Thread(() -> sum += 1, "xqtenantqx-child");
                child.start();
                child.join();
            }
        } catch (InterruptedException e) {
            throw new IllegalStateException(e);
        }
    }

    void xqmethodqx(int turn) throws InterruptedException {
        synchronized (lock) {
            Thread.sleep(5);
            if (turn % 3 == number) lock.wait(20);
            lock.notifyAll();
        }
        LockSupport.parkNanos(1_000_000);
        for (int n = 0; n < 3_000_000; n++) sum += Math.sqrt(n);
        kept.add(new byte[100_000]);
        kept.add(new xqclassqx());
        var event = new OwnEvent();
        event.xqfieldqx = "xqownvalueqx";
        event.commit();
        var alike = new JdkEvent();
        alike.text = "xqjdkvalueqx";
        alike.commit();
    }
}

class xqclassqx {
    Object[] room = new Object[1000];
}

@Name("bench.xqeventnameqx")
@Label("xqlabelqx")
@Description("xqdescriptionqx")
@Category({"xqcategoryqx", "Java Application"})
@Marked("xqannotationqx")
class OwnEvent extends Event {
    @Label("A field")
    String xqfieldqx;

    @Name("xqsettingnameqx")
    @SettingDefinition
    boolean setting(xqsettingclassqx setting) {
        return true;
    }
}

// A type of the program's own that is named as the JDK's are.
@Name("jdk.GCxqjdknameqx")
class JdkEvent extends Event {
    String text;
}

// A type of the program's own with the name of a JDK type.
@Name("jdk.CPULoad")
class SameEvent extends Event {
    String text;
}

class xqsettingclassqx extends SettingControl {
    private String value = "";

    @Override
    public String combine(Set<String> values) {
        return values.contains("xqsettingvalueqx") ? "xqsettingvalueqx" : "";
    }

    @Override
    public void setValue(String value) {
        this.value = value;
    }

    @Override
    public String getValue() {
        return value;
    }
}

@MetadataDefinition
@Retention(RetentionPolicy.RUNTIME)
@Target(ElementType.TYPE)
@interface Marked {
    String value();
}

class OwnProvider extends Provider {
    OwnProvider() {
        super("xqproviderqx", "1", "");
        putService(new Service(this, "MessageDigest", "xqalgorithmqx", OwnDigest.class.getName(), null, null) {
            @Override
            public Object newInstance(Object parameter) {
                return new OwnDigest();
            }
        });
    }
}

// A digest that is always empty, so that there is an algorithm to ask for.
class OwnDigest extends MessageDigestSpi {
    @Override
    protected void engineUpdate(byte input) {}

    @Override
    protected void engineUpdate(byte[] input, int offset, int length) {}

    @Override
    protected byte[] engineDigest() {
        return new byte[0];
    }

    @Override
    protected void engineReset() {}
}

class Agent {
    public static void premain(String words) {}
}
