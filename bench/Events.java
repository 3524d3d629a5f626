import java.nio.file.Path;
import java.util.TreeMap;
import jdk.jfr.consumer.RecordingFile;

/** Counts the events of recordings together by type, as the JDK's reader gives them: java Events.java FILE.. */
class Events {
    public static void main(String[] names) throws Exception {
        var counts = new TreeMap<String, Integer>();
        for (String name : names) {
            try (var file = new RecordingFile(Path.of(name))) {
                while (file.hasMoreEvents()) {
                    counts.merge(file.readEvent().getEventType().getName(), 1, Integer::sum);
                }
            }
        }
        counts.forEach((type, count) -> System.out.println(type + " " + count));
    }
}
