/* Hoengtila in FFmpeg's VVC decoder: all that a product adds. `decoder/change` has libavcodec/vvc/intra.c include it above `itransform`,
 * and puts the call of hoengtila_residuals in the place of the lines that made the residuals. docs/DECODER.md explains the fields. */
#include <stdio.h>
#include <stdlib.h>
#include <hoengtila.h>

/* The block behind scaling. The decoder has found kinds, extents and intra mode as before; of LFNST it picks the matrix and the order. */
static hoengtila_transform_block hoengtila_block(const VVCLocalContext *lc, const TransformBlock *tb)
{
    const VVCSPS *sps = lc->fc->ps.sps;
    enum VVCTxType horizontal, vertical;
    hoengtila_transform_block block = {0};

    derive_transform_type(lc->fc, lc, tb, &horizontal, &vertical);
    block.width = tb->tb_width;
    block.height = tb->tb_height;
    block.horizontal = horizontal;
    block.vertical = vertical;
    block.depth = sps->bit_depth;
    block.extended = sps->r->sps_extended_precision_flag;
    block.columns = tb->max_scan_x + 1;
    block.rows = tb->max_scan_y + 1;
    if (lc->cu->apply_lfnst_flag[tb->c_idx]) {
        const int mode = derive_ilfnst_pred_mode_intra(lc, tb);
        block.lfnst = lc->cu->lfnst_idx;
        block.set = mode < 0 ? 1 : ff_vvc_lfnst_tr_set_index[mode];
        block.transposed = mode > 34;
    }
    return block;
}

static void hoengtila_print(hoengtila_transform_block b, hoengtila_answer answer)
{
    fprintf(stderr, "hoengtila: refusal %u, place %u: width %u, height %u, horizontal %u, vertical %u, depth %u, extended %u, columns %u, "
            "rows %u, lfnst %u, set %u, transposed %u\n", answer.number, answer.place, b.width, b.height, b.horizontal, b.vertical,
            b.depth, b.extended, b.columns, b.rows, b.lfnst, b.set, b.transposed);
}

/* The coefficients of a block whose transform is not skipped become its residuals, in place. */
static inline void hoengtila_residuals(const VVCLocalContext *lc, TransformBlock *tb)
{
    const hoengtila_transform_block block = hoengtila_block(lc, tb);
    const hoengtila_answer answer = hoengtila_transform_block_inverse(block, tb->coeffs, tb->tb_width * tb->tb_height);

    if (answer.number != 0) {
        hoengtila_print(block, answer);
        abort();
    }
}
