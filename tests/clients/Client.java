import java.io.IOException;
import java.net.URI;
import java.net.http.HttpClient;
import java.net.http.HttpRequest;
import java.net.http.HttpResponse;
import java.nio.charset.StandardCharsets;
import java.nio.file.Files;
import java.nio.file.Path;
import java.util.List;
import java.util.Set;

/**
 * Posts by Java's own client: as it is, which asks for HTTP/2 on each new connection, and in HTTP/1.1; in JSON, and in
 * protobuf from files.
 *
 * <p>java Client.java PORT FOLDER SECONDS_BETWEEN_POSTS
 *
 * <p>Each way has a series and a sender of its own, java.default.json and so on. All else is as in client.mjs.
 */
class Client implements Runnable {
    static final Set<Integer> AGAIN = Set.of(429, 502, 503, 504);

    final String series;
    final HttpClient client;
    final boolean json;
    final URI uri;
    final Path folder;
    final double pause;

    Client(String name, HttpClient client, boolean json, String[] words) {
        this.series = name + (json ? ".json" : ".protobuf");
        this.client = client;
        this.json = json;
        this.uri = URI.create("http://127.0.0.1:" + words[0] + "/v1/metrics");
        this.folder = Path.of(words[1]);
        this.pause = Double.parseDouble(words[2]);
    }

    public static void main(String[] words) throws InterruptedException {
        HttpClient one = HttpClient.newHttpClient();
        HttpClient other = HttpClient.newBuilder().version(HttpClient.Version.HTTP_1_1).build();
        List<Thread> threads = List.of(
                new Thread(new Client("java.default", one, true, words)),
                new Thread(new Client("java.default", one, false, words)),
                new Thread(new Client("java.http1", other, true, words)),
                new Thread(new Client("java.http1", other, false, words)));
        threads.forEach(Thread::start);
        for (Thread thread : threads) {
            thread.join();
        }
        System.exit(0); // the clients have threads of their own
    }

    @Override
    public void run() {
        try {
            post();
        } catch (IOException | InterruptedException error) {
            throw new IllegalStateException(error);
        }
    }

    void post() throws IOException, InterruptedException {
        long taken = 0;
        long sum = 0;
        long repeats = 0;
        while (!Files.exists(folder.resolve("stop"))) {
            long value = 1 + taken % 9;
            Path ready = folder.resolve("bodies").resolve(series + "." + taken);
            if (!json && !Files.exists(ready)) {
                return;
            }
            byte[] body = json ? inJson(taken, value) : Files.readAllBytes(ready);
            HttpRequest request = HttpRequest.newBuilder(uri)
                    .header("Content-Type", json ? "application/json" : "application/x-protobuf")
                    .header("x-sender", series)
                    .POST(HttpRequest.BodyPublishers.ofByteArray(body))
                    .build();
            double wait = 0.2;
            int status = 503; // no answer came: it is repeated too
            String text = "";
            try {
                HttpResponse<String> answer = client.send(request, HttpResponse.BodyHandlers.ofString());
                status = answer.statusCode();
                text = answer.body();
                wait = answer.headers().firstValue("retry-after").map(Double::parseDouble).orElse(wait);
            } catch (IOException error) {
                text = error.toString();
            }
            if (AGAIN.contains(status)) {
                repeats++;
                sleep(wait);
                continue;
            }
            if (status != 200 || !text.equals(json ? "{}" : "")) {
                Files.writeString(folder.resolve(series + ".surprise"), status + " " + text);
                return;
            }
            taken++;
            sum += value;
            Files.writeString(folder.resolve(series), taken + " " + sum + " " + repeats + " 0");
            sleep(pause);
        }
    }

    byte[] inJson(long place, long value) {
        long start = 1000 + place * 10;
        String point = "{\"startTimeUnixNano\":\"" + start + "\",\"timeUnixNano\":\"" + (start + 10) + "\",\"asInt\":\""
                + value + "\"}";
        String sum = "{\"aggregationTemporality\":1,\"isMonotonic\":true,\"dataPoints\":[" + point + "]}";
        String text = "{\"resourceMetrics\":[{\"scopeMetrics\":[{\"metrics\":[{\"name\":\"" + series + "\",\"sum\":" + sum
                + "}]}]}]}";
        return text.getBytes(StandardCharsets.UTF_8);
    }

    static void sleep(double seconds) throws InterruptedException {
        Thread.sleep((long) (seconds * 1000));
    }
}
