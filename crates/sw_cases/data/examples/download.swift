final class Download {
  var bytes = 0
}
actor Queue {
  func next() -> Download {
    return Download()
  }
}
func start(_ download: Download) -> Task<Int, Never> {
  return Task.detached {
    download.bytes = 1000
    return download.bytes
  }
}
@main struct App {
  static func main() async {
    let queue = Queue()
    let download = await queue.next()
    let fetching = start(download)
    print(download.bytes)
    print(await fetching.value)
  }
}
