// Prints all matches of some words in standard input: java Find.java WORD... < TEXT
// libfind.so, in a folder of java.library.path, is find_java.c, compiled.
import java.io.ByteArrayOutputStream;
import java.io.IOException;
import java.nio.charset.StandardCharsets;

public class Find {
    static native long make(byte[] patterns, long[] ends);
    static native boolean next(long search, byte[] text, long from, long[] found);
    static native void free(long search);

    public static void main(String[] words) throws IOException {
        System.loadLibrary("find");
        var patterns = new ByteArrayOutputStream();
        long[] ends = new long[words.length], found = new long[3];
        for (int i = 0; i < words.length; i++) {
            patterns.write(words[i].getBytes(StandardCharsets.UTF_8));
            ends[i] = patterns.size();
        }
        long search = 0;
        try {
            search = make(patterns.toByteArray(), ends);
        } catch (IllegalArgumentException why) {
            System.err.println("find: " + why.getMessage());
            System.exit(2);
        }
        byte[] text = System.in.readAllBytes();
        while (next(search, text, found[2], found))
            System.out.println(found[0] + " " + found[1] + " " + found[2]);
        free(search);
    }
}
