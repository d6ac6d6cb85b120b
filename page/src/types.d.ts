declare module "dagre" {
  namespace dagre {
    interface GraphEdge {
      points: { x: number; y: number }[];
      x: number;
      y: number;
    }
    interface Node {
      x: number;
      y: number;
      width: number;
      height: number;
    }
    namespace graphlib {
      class Graph {
        constructor(options?: { multigraph?: boolean });
        setGraph(label: Record<string, unknown>): void;
        graph(): { width?: number; height?: number };
        setDefaultEdgeLabel(label: () => Record<string, unknown>): void;
        setNode(name: string, label: { width: number; height: number }): void;
        setEdge(from: string, to: string, label: Record<string, unknown>, name: string): void;
        node(name: string): Node;
        edge(from: string, to: string, name: string): GraphEdge;
      }
    }
    function layout(graph: graphlib.Graph): void;
  }
  export default dagre;
}

interface HTMLElement {
  inert: boolean;
}

declare class CompressionStream {
  constructor(format: "gzip" | "deflate-raw");
  readonly readable: ReadableStream<Uint8Array>;
  readonly writable: WritableStream<Uint8Array>;
}

declare class DecompressionStream extends CompressionStream {}
