import java.nio.file.Path;
import java.util.ArrayList;
import java.util.List;
import jdk.jfr.Configuration;
import jdk.jfr.Recording;

/**
 * Makes a recording for jdk_reads.py: java Phases.java FILE. Its chunks have events of different types: the first and
 * the last are quiet, and between them threads wait for a lock, and the heap is collected. At the end a thread that
 * earlier chunks name has another name.
 */
public class Phases {
    private static final Object LOCK = new Object();

    public static void main(String[] args) throws Exception {
        try (Recording recording = new Recording(Configuration.getConfiguration("profile"))) {
            recording.start();
            Thread.sleep(100);
            beginChunk();
            work();
            beginChunk();
            Thread.currentThread().setName("renamed");
            Thread.sleep(100);
            recording.stop();
            recording.dump(Path.of(args[0]));
        }
    }

    /** A recording that begins or ends begins a chunk in the others. */
    private static void beginChunk() throws InterruptedException {
        try (Recording other = new Recording()) {
            other.start();
            Thread.sleep(50);
        }
    }

    private static void work() throws InterruptedException {
        List<Thread> threads = new ArrayList<>();
        for (int number = 0; number < 3; number++) {
            Thread thread = new Thread(Phases::hold, "worker-" + number);
            threads.add(thread);
            thread.start();
        }
        byte[][] kept = new byte[100][];
        for (int number = 0; number < 300_000; number++) {
            kept[number % kept.length] = new byte[2000];
        }
        System.gc();
        for (Thread thread : threads) {
            thread.join();
        }
    }

    private static void hold() {
        for (int time = 0; time < 3; time++) {
            synchronized (LOCK) {
                try {
                    Thread.sleep(30);
                } catch (InterruptedException stopped) {
                    return;
                }
            }
        }
    }
}
